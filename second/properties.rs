//! Claims about whole sequences and ACLs, tried on random ones: the same seed tries the same ones.

use std::io::{self, Write};

use crate::desk::{attest, Verdict};
use crate::encode;
use crate::grade::{permitted_request, premise_holds};
use crate::make_history::Tally;
use crate::maker::Maker;

/// A claim that does not hold, with what shows it.
pub type Broken = String;

/// Tries both claims so many times and writes what was tried; the first one broken ends it.
pub fn properties(
    output: &mut impl Write,
    seed: u64,
    count: u64,
) -> io::Result<Result<(), Broken>> {
    let mut maker = Maker::new(seed, true);
    let outcome = match uses(&mut maker, count) {
        Ok(line) => {
            writeln!(output, "{line}")?;
            grades(&mut maker, count)
        }
        broken => broken,
    };
    match outcome {
        Ok(line) => {
            writeln!(output, "{line}")?;
            Ok(Ok(()))
        }
        Err(broken) => Ok(Err(format!("seed {seed}, {broken}"))),
    }
}

/// Request m.
fn uses(maker: &mut Maker, count: u64) -> Result<String, Broken> {
    let mut tally = Tally::default();
    for round in 0..count {
        let history = maker.history(&mut tally);
        if !history.can_be_put_down() {
            return Err(format!("round {round}: a use was bought: {history:?}"));
        }
    }
    Ok(format!(
        "narrowing never buys uses: {count} sequences, {} permits put down, {} of them narrowings, \
         {} after one, {} refused as spent",
        tally.permits, tally.narrowings, tally.after_narrowing, tally.spent
    ))
}

/// Request n. Cases outside its premise are passed over.
fn grades(maker: &mut Maker, count: u64) -> Result<String, Broken> {
    let mut found = [0; 4];
    let mut tried = 0;
    while tried < count {
        let (case, keys) = maker.graded_case();
        let (bundle, acl) = (encode::bundle(&case.bundle), encode::acl(&case.acl));
        let protection = match attest(&bundle, &acl) {
            Ok(Verdict::AcceptSecond { protection, .. }) if protection < 4 => protection,
            _ => continue,
        };
        if !premise_holds(&case.acl, keys) {
            continue;
        }
        let loaded = maker.ledger.loaded(maker.random.next());
        if permitted_request(&case.acl, keys, &loaded, protection).is_none() {
            return Err(format!(
                "case {tried}: no request of protection {protection}: {keys:?} {case:?}"
            ));
        }
        found[usize::from(protection)] += 1;
        tried += 1;
    }
    Ok(format!(
        "the grade is not too cautious: {count} accepted ACLs, of protection 1 {}, 2 {}, 3 {}",
        found[1], found[2], found[3]
    ))
}

#[cfg(test)]
mod tests {
    use super::*;

    #[test]
    fn random_sequences_and_acls_hold() {
        let mut output = Vec::new();
        let outcome = properties(&mut output, 1, 100).unwrap();
        assert_eq!(outcome, Ok(()));
    }
}
