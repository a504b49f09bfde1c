//! The trimming tool: an ACL without what fails the desk's ACL steps, and hints that show it to be a
//! narrowing of the old one.

use crate::acl::{Acl, Action, Group, MOST_ACTIONS};
use crate::bundle::Bundle;
use crate::desk::{admitted_bits, check_action, is_officers, read_inputs, steps_before_acl};
use crate::encode;
use crate::record::{write_front, Refusal};
use crate::replace::Hint;

/// The lengths of the new ACL and of the hints, or the failing step before the ACL.
pub type Trimmed = Result<(usize, usize), &'static str>;

/// "The tool judges by approach 2 whatever the policy names. Refusals and failing steps before the
/// ACL are reported as the desk reports them, KV3 and CSRL1 are not judged. If either buffer is
/// short the answer is 9; on any of these both stay untouched".
pub fn trim(
    bundle: &[u8],
    acl: &[u8],
    acl_buffer: &mut [u8],
    hints_buffer: &mut [u8],
) -> Result<Trimmed, Refusal> {
    let (bundle, acl, mechanism) = read_inputs(bundle, acl)?;
    if let Err(step) = steps_before_acl(&bundle) {
        return Ok(Err(step));
    }
    let (new, hints) = trimmed(&bundle, &acl, mechanism);
    let (new, hints) = (encode::acl(&new), encode::hints(&hints));
    if hints_buffer.len() < hints.len() {
        return Err(Refusal::ShortBuffer);
    }
    let acl_length = write_front(acl_buffer, &new)?;
    let hints_length = write_front(hints_buffer, &hints)?;
    Ok(Ok((acl_length, hints_length)))
}

/// The new ACL, "with hints naming each kept group and action by its old place". Every group is
/// kept.
pub fn trimmed(bundle: &Bundle, acl: &Acl, mechanism: u16) -> (Acl, Vec<Hint>) {
    let mut new = Acl::default();
    let mut hints = Vec::new();
    for (place, group) in acl.groups.iter().enumerate() {
        let kept = kept_actions(bundle, group, mechanism);
        let mut hint = Hint {
            source: place as u8,
            actions: [0; MOST_ACTIONS],
        };
        for (byte, (old_place, _)) in hint.actions.iter_mut().zip(&kept) {
            *byte = *old_place as u8;
        }
        hints.push(hint);
        new.groups.push(Group {
            actions: kept.into_iter().map(|(_, action)| action).collect(),
            ..group.clone()
        });
    }
    (new, hints)
}

/// "In groups the desk checks, drop every permission bit that fails ACLV3 and every blob action,
/// with its kind 15 record, that fails a WB or RB step; keep all else, an OpPermissions action left
/// with no bit too."
fn kept_actions(bundle: &Bundle, group: &Group, mechanism: u16) -> Vec<(usize, Action)> {
    let actions = group.actions.iter().cloned().enumerate();
    if is_officers(bundle, group) {
        return actions.collect();
    }
    actions
        .filter_map(|(place, action)| match action {
            Action::OpPermissions(bits) => {
                let left = bits & admitted_bits(bundle.policy.bits);
                Some((place, Action::OpPermissions(left)))
            }
            blob => {
                let passes = check_action(bundle, &blob, mechanism).is_ok();
                passes.then_some((place, blob))
            }
        })
        .collect()
}

#[cfg(test)]
mod tests {
    use super::*;
    use crate::acl::MakeBlob;
    use crate::desk::check_acl;
    use crate::maker::Maker;
    use crate::replace::is_narrowing;
    use crate::subject::recovery_mechanism;

    /// Every action that the hints leave out failed a step, and every bit that is gone too.
    fn what_is_gone_had_failed(bundle: &Bundle, old: &Acl, new: &Acl, hints: &[Hint], mech: u16) {
        for ((old, new), hint) in old.groups.iter().zip(&new.groups).zip(hints) {
            for (place, action) in old.actions.iter().enumerate() {
                let kept = hint.actions[..new.actions.len()]
                    .iter()
                    .position(|byte| usize::from(*byte) == place);
                let Some(kept) = kept else {
                    assert!(!is_officers(bundle, old));
                    assert!(check_action(bundle, action, mech).is_err());
                    continue;
                };
                match (action, &new.actions[kept]) {
                    (Action::OpPermissions(old_bits), Action::OpPermissions(bits)) => {
                        let gone = Action::OpPermissions(old_bits & !bits);
                        assert_eq!(bits & !old_bits, 0);
                        assert!(*old_bits == *bits || check_action(bundle, &gone, mech).is_err());
                    }
                    (old, new) => assert_eq!(old, new),
                }
            }
        }
    }

    #[test]
    fn the_result_is_a_narrowing_and_fails_no_acl_step() {
        let mut maker = Maker::new(13, true);
        for _ in 0..600 {
            let case = maker.trim_case(2);
            let mech = recovery_mechanism(u64::from(case.bundle.policy.suite)).unwrap_or(1);
            let (new, hints) = trimmed(&case.bundle, &case.acl, mech);
            assert!(is_narrowing(&case.acl, &new, &hints), "{case:?}");
            assert!(check_acl(&case.bundle, &new, mech).is_ok(), "{case:?}");
            what_is_gone_had_failed(&case.bundle, &case.acl, &new, &hints, mech);
            let failed_none = check_acl(&case.bundle, &case.acl, mech).is_ok();
            assert_eq!(failed_none, new == case.acl);
        }
    }

    #[test]
    fn an_open_permission_action_left_with_no_bit_stays() {
        let mut maker = Maker::new(14, true);
        let mut case = maker.passing_case(1);
        case.acl = Acl {
            groups: vec![Group {
                actions: vec![
                    Action::OpPermissions(1 << 10),
                    Action::MakeBlob(MakeBlob::default()),
                    Action::OpPermissions(1 << 3 | 1 << 15),
                ],
                ..Group::default()
            }],
        };
        let files = (encode::bundle(&case.bundle), encode::acl(&case.acl));
        let (mut new, mut hints) = ([0xee; 193], [0xee; 65]);
        let reply = trim(&files.0, &files.1, &mut new, &mut hints);
        assert_eq!(reply, Ok(Ok((192, 64))));
        let expected = Acl {
            groups: vec![Group {
                actions: vec![Action::OpPermissions(0), Action::OpPermissions(1 << 3)],
                ..Group::default()
            }],
        };
        assert_eq!(new[..192], encode::acl(&expected));
        assert_eq!((new[192], hints[64]), (0xee, 0xee));
        assert_eq!(hints[8..16], [0, 2, 0, 0, 0, 0, 0, 0]);
        for (acl_length, hints_length) in [(191, 64), (192, 63), (0, 0)] {
            let (mut new, mut hints) = (vec![0xee; acl_length], vec![0xee; hints_length]);
            let reply = trim(&files.0, &files.1, &mut new, &mut hints);
            assert_eq!(reply, Err(Refusal::ShortBuffer));
            assert!(new.iter().chain(&hints).all(|byte| *byte == 0xee));
        }
    }

    #[test]
    fn steps_before_the_acl_are_those_of_approach_2() {
        let mut maker = Maker::new(15, true);
        for (step, reported) in [
            ("MSCV3", true),
            ("KGCV2", true),
            ("CSRL1", false),
            ("KV3", false),
        ] {
            let case = maker.failing_case(1, step);
            let files = (encode::bundle(&case.bundle), encode::acl(&case.acl));
            let (mut new, mut hints) = (vec![0; 86_016], vec![0; 4096]);
            let reply = trim(&files.0, &files.1, &mut new, &mut hints).unwrap();
            assert_eq!(reply.err(), reported.then_some(step));
        }
    }
}
