//! Runs of requests over certificates that the host has decoded once.

use crate::acl::Acl;
use crate::gate::{check_km0_length, grant};
use crate::ledger::Ledger;
use crate::read_acl::{check_acl_length, read_acl};
use crate::record::{check_length, malformed_unless, write_front, Refusal, RECORD_LENGTH};
use crate::request::{read_request, Certificate, Presented, MOST_CERTIFICATES};

/// "Up to a hundred requests".
pub const MOST_BATCH: usize = 100;
/// A decoded certificate in a row: the hash, then the mechanism.
pub const ROW_ENTRY_LENGTH: usize = 22;
/// "Each answer is eight bytes".
pub const ANSWER_LENGTH: usize = 8;

/// What a run is asked with: a lent row of decoded certificates and a lent run of request records.
#[derive(Clone, Copy)]
pub struct Run<'a> {
    pub km0: &'a [u8],
    pub acl: &'a [u8],
    pub row: &'a [u8],
    pub records: &'a [u8],
}

/// A batch: the reply is the number of its requests and the ledger after the last.
pub fn batch(ledger: &Ledger, run: Run, buffer: &mut [u8]) -> Result<(usize, Ledger), Refusal> {
    let (acl, presented) = check_run(run, MOST_BATCH, buffer.len())?;
    answer_run(ledger, run, &acl, &presented, buffer)
}

/// "Before any request is judged, and with the buffer untouched: a run over 100 or not whole
/// records, or a bad ACL or KM0 length, gives 1; then a row over 32 gives 3, a zero mechanism 2, a
/// fault in the ACL's records its number, a short answer buffer 9."
pub fn check_run(run: Run, most: usize, buffer: usize) -> Result<(Acl, Presented), Refusal> {
    check_length(run.records, most)?;
    check_acl_length(run.acl)?;
    check_km0_length(run.km0)?;
    let certificates = read_row(run.row);
    if certificates.len() > MOST_CERTIFICATES {
        return Err(Refusal::TooMany);
    }
    malformed_unless(certificates.iter().all(|one| one.mechanism != 0))?;
    let acl = read_acl(run.acl)?;
    if buffer < run.records.len() / RECORD_LENGTH * ANSWER_LENGTH {
        return Err(Refusal::ShortBuffer);
    }
    let presented = Presented {
        certificates,
        ..Presented::default()
    };
    Ok((acl, presented))
}

fn read_row(row: &[u8]) -> Vec<Certificate> {
    let certificate = |entry: &[u8]| {
        let mut key = [0; 20];
        key.copy_from_slice(&entry[..20]);
        Certificate {
            key,
            mechanism: u16::from_be_bytes([entry[20], entry[21]]),
        }
    };
    row.chunks_exact(ROW_ENTRY_LENGTH)
        .map(certificate)
        .collect()
}

/// "The answers and ledger of a run not refused whole equal those of asking one by one in order; a
/// refusal in the middle changes nothing and the run goes on."
pub fn answer_run(
    ledger: &Ledger,
    run: Run,
    acl: &Acl,
    presented: &Presented,
    buffer: &mut [u8],
) -> Result<(usize, Ledger), Refusal> {
    let mut ledger = ledger.clone();
    let mut answers = Vec::new();
    for record in run.records.chunks(RECORD_LENGTH) {
        let reply = ask(&ledger, run.km0, acl, presented, record);
        answers.extend(answer_bytes(&reply));
        if let Ok((_, charged)) = reply {
            ledger = charged;
        }
    }
    let length = write_front(buffer, &answers)?;
    Ok((length / ANSWER_LENGTH, ledger))
}

/// "A malformed request record gets its own answer 2"; so does one whose flag 6 calls for a kind 15
/// record, which is "not offered here".
fn ask(
    ledger: &Ledger,
    km0: &[u8],
    acl: &Acl,
    presented: &Presented,
    record: &[u8],
) -> Result<(usize, Ledger), Refusal> {
    let (request, _) = read_request(record, None)?;
    grant(ledger, km0, acl, &request, presented)
}

/// "The number (0 for a permit) in four, then the group in four, all ones where none is named".
fn answer_bytes(reply: &Result<(usize, Ledger), Refusal>) -> Vec<u8> {
    let (number, group) = match reply {
        Ok((place, _)) => (0, Some(*place)),
        Err(refusal) => (u32::from(refusal.number()), refusal.beside()),
    };
    let group = group.map_or(u32::MAX, |place| place as u32);
    [number.to_be_bytes(), group.to_be_bytes()].concat()
}

#[cfg(test)]
mod tests {
    use super::*;
    use crate::acl::{Action, Group, Limit, Sort};
    use crate::encode;
    use crate::request::{Asked, Request};

    const KM0: [u8; 20] = [0; 20];

    /// Two Sign groups: one certified by key 7, one with a single use per load.
    fn acl() -> Vec<u8> {
        let sign = |certifier, limits| Group {
            certifier,
            limits,
            actions: vec![Action::OpPermissions(1 << 4)],
            ..Group::default()
        };
        let once = Limit {
            sort: Sort::UsesPerLoad,
            maximum: 1,
        };
        let groups = vec![sign(Some([7; 20]), Vec::new()), sign(None, vec![once])];
        encode::acl(&Acl { groups })
    }

    fn use_at(permission: u8, time: u64) -> Vec<u8> {
        let request = Request {
            asked: Asked::Use(permission),
            time,
            blobfile: None,
        };
        encode::request_record(&request).to_vec()
    }

    fn row(key: u8, mechanism: u16, number: usize) -> Vec<u8> {
        let mut entry = vec![key; 20];
        entry.extend(mechanism.to_be_bytes());
        entry.repeat(number)
    }

    #[test]
    fn a_refusal_in_the_middle_changes_nothing() {
        let mut malformed = use_at(4, 6);
        malformed[1] = 1;
        let records = [
            use_at(4, 5),
            use_at(4, 4),
            malformed,
            use_at(9, 6),
            use_at(4, 6),
        ]
        .concat();
        let run = Run {
            km0: &KM0,
            acl: &acl(),
            row: &[],
            records: &records,
        };
        let mut buffer = [0xee; 44];
        let (number, ledger) = batch(&Ledger::fresh(), run, &mut buffer).unwrap();
        assert_eq!(number, 5);
        let expected = "0000000000000001 00000004ffffffff 00000002ffffffff 00000005ffffffff \
                        0000000700000001 eeeeeeee"
            .replace(' ', "");
        let hex: String = buffer.iter().map(|byte| format!("{byte:02x}")).collect();
        assert_eq!(hex, expected);
        assert_eq!((ledger.group_counts[1], ledger.last_time), (1, 5));
    }

    #[test]
    fn the_row_certifies() {
        let records = use_at(4, 0);
        let run = Run {
            km0: &KM0,
            acl: &acl(),
            row: &row(7, 3, 1),
            records: &records,
        };
        let mut buffer = [0xee; 8];
        assert_eq!(batch(&Ledger::fresh(), run, &mut buffer).unwrap().0, 1);
        assert_eq!(buffer, [0; 8]);
    }

    #[test]
    fn whole_refusals_in_order() {
        let too_long = use_at(4, 0).repeat(101);
        let hundred = use_at(4, 0).repeat(100);
        let wide = row(7, 0, 33);
        let zero = row(7, 0, 32);
        let good = row(7, 1, 32);
        let bad_acl = [0; 64];
        let mut buffer = [0xee; 799];
        let mut reply = |km0: &[u8], acl: &[u8], row: &[u8], records: &[u8]| {
            let run = Run {
                km0,
                acl,
                row,
                records,
            };
            let reply = batch(&Ledger::fresh(), run, &mut buffer).map(|(number, _)| number);
            assert!(reply.is_ok() || buffer == [0xee; 799]);
            reply
        };
        let length = Err(Refusal::Length);
        assert_eq!(reply(&KM0, &bad_acl, &wide, &too_long), length);
        assert_eq!(reply(&KM0, &bad_acl, &wide, &hundred[1..]), length);
        assert_eq!(reply(&KM0[1..], &bad_acl, &wide, &hundred), length);
        assert_eq!(reply(&KM0, &bad_acl[1..], &wide, &hundred), length);
        assert_eq!(
            reply(&KM0, &bad_acl, &wide, &hundred),
            Err(Refusal::TooMany)
        );
        assert_eq!(
            reply(&KM0, &bad_acl, &zero, &hundred),
            Err(Refusal::Malformed)
        );
        assert_eq!(
            reply(&KM0, &bad_acl, &good, &hundred),
            Err(Refusal::Malformed)
        );
        assert_eq!(
            reply(&KM0, &acl(), &good, &hundred),
            Err(Refusal::ShortBuffer)
        );
        assert_eq!(reply(&KM0, &acl(), &good, &hundred[64..]), Ok(99));
        assert_eq!(reply(&KM0, &acl(), &[], &[]), Ok(0));
    }
}
