//! The prepared form of an ACL, and runs that lend it.

use crate::acl::{Acl, Action, Group};
use crate::batch::{answer_run, check_run, Run};
use crate::ledger::Ledger;
use crate::read_acl::{check_acl_length, read_acl};
use crate::record::Refusal;

/// "Runs as in request j, of up to 1,000 requests".
pub const MOST_PREPARED: usize = 1000;
/// Sixteen permissions, working blobs, recovery blobs.
pub const SETS: usize = 18;
const WORKING_BLOBS: usize = 16;
const RECOVERY_BLOBS: usize = 17;
/// A form in a script: each set a number of 8 bytes.
pub const FORM_LENGTH: usize = SETS * 8;

/// "For each permission exactly the groups with an action that sets its bit, for each blob kind
/// exactly those with an action for it, and nothing more": each set a number, bit g for group g.
pub type Form = [u64; SETS];

/// The form of an ACL, or the ACL's own refusal.
pub fn prepare(acl: &[u8]) -> Result<Form, Refusal> {
    check_acl_length(acl)?;
    Ok(form_of(&read_acl(acl)?))
}

pub fn form_of(acl: &Acl) -> Form {
    std::array::from_fn(|set| {
        let members = acl.groups.iter().enumerate();
        members
            .filter(|(_, group)| is_member(group, set))
            .map(|(place, _)| 1 << place)
            .sum()
    })
}

fn is_member(group: &Group, set: usize) -> bool {
    group.actions.iter().any(|action| match action {
        Action::OpPermissions(bits) => set < WORKING_BLOBS && bits >> set & 1 == 1,
        Action::MakeBlob(_) => set == WORKING_BLOBS,
        Action::MakeArchiveBlob(_) => set == RECOVERY_BLOBS,
    })
}

/// "Once per run, after the refusals of request j and before any request is judged, a prepared form
/// that differs from the one made of the lent ACL is refused with 14, buffer untouched."
pub fn prepared_run(
    ledger: &Ledger,
    form: &[u8],
    run: Run,
    buffer: &mut [u8],
) -> Result<(usize, Ledger), Refusal> {
    let (acl, presented) = check_run(run, MOST_PREPARED, buffer.len())?;
    if form != form_bytes(&form_of(&acl)) {
        return Err(Refusal::OtherForm);
    }
    answer_run(ledger, run, &acl, &presented, buffer)
}

/// A form as it stands in a script.
pub fn form_bytes(form: &Form) -> Vec<u8> {
    form.iter().flat_map(|set| set.to_be_bytes()).collect()
}

#[cfg(test)]
mod tests {
    use super::*;
    use crate::acl::{MakeArchiveBlob, MakeBlob};
    use crate::encode;

    fn group(actions: Vec<Action>) -> Group {
        Group {
            actions,
            ..Group::default()
        }
    }

    fn archive() -> Action {
        Action::MakeArchiveBlob(MakeArchiveBlob {
            kahash: Some([1; 20]),
            mechanism: 1,
            blobfile: None,
        })
    }

    #[test]
    fn each_set_has_exactly_its_groups() {
        let mut groups = vec![Group::default(); 64];
        groups[0] = group(vec![
            Action::OpPermissions(0x8001),
            Action::OpPermissions(0x10),
        ]);
        groups[3] = group(vec![Action::MakeBlob(MakeBlob::default()), archive()]);
        groups[63] = group(vec![Action::OpPermissions(0x10), archive()]);
        let form = prepare(&encode::acl(&Acl { groups })).unwrap();
        let mut expected = [0; SETS];
        expected[0] = 1;
        expected[4] = 1 | 1 << 63;
        expected[15] = 1;
        expected[WORKING_BLOBS] = 1 << 3;
        expected[RECOVERY_BLOBS] = 1 << 3 | 1 << 63;
        assert_eq!(form, expected);
        assert_eq!(prepare(&[]), Ok([0; SETS]));
        assert_eq!(prepare(&[0; 64]), Err(Refusal::Malformed));
        assert_eq!(prepare(&[0; 63]), Err(Refusal::Length));
    }

    #[test]
    fn another_form_is_refused_after_everything_else() {
        let acl = encode::acl(&Acl {
            groups: vec![group(vec![Action::OpPermissions(0x10)])],
        });
        let right = form_bytes(&prepare(&acl).unwrap());
        let mut wrong = right.clone();
        wrong[FORM_LENGTH - 1] = 2;
        let mut sign = [0; 64];
        sign[0] = 6;
        sign[4] = 4;
        let records = sign.repeat(1000);
        let run = Run {
            km0: &[0; 20],
            acl: &acl,
            row: &[],
            records: &records,
        };
        let mut buffer = [0xee; 8000];
        let fresh = Ledger::fresh();
        let reply = prepared_run(&fresh, &wrong, run, &mut buffer[..7999]);
        assert_eq!(reply, Err(Refusal::ShortBuffer));
        let reply = prepared_run(&fresh, &wrong, run, &mut buffer);
        assert_eq!(reply, Err(Refusal::OtherForm));
        assert_eq!(buffer, [0xee; 8000]);
        let (number, ledger) = prepared_run(&fresh, &right, run, &mut buffer).unwrap();
        assert_eq!((number, ledger.group_counts[0]), (1000, 1000));
        assert_eq!(buffer, [0; 8000]);
    }
}
