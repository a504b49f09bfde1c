//! Replacing the ACL in force: narrowing, which hints must show to be one, and expansion.

use crate::acl::{Acl, Action, Group, Limit, MakeBlob, MOST_ACTIONS, MOST_GROUPS};
use crate::blobfile::blobfile_is_narrower;
use crate::gate::{check_km0_length, grant};
use crate::ledger::Ledger;
use crate::read_acl::{check_acl_length, read_acl};
use crate::record::{check_length, malformed_unless, records, Record, Refusal};
use crate::request::{check_request_length, read_request, EXPAND_ACL, REDUCE_ACL};

/// "Hints grow to 64 records": one for each new group.
pub const MOST_HINTS: usize = MOST_GROUPS;

/// "13 hint: byte 4 source group, 8-15 a source action for each action of the new group, all from
/// 0."
#[derive(Clone, Copy, Debug, Default, PartialEq)]
pub struct Hint {
    pub source: u8,
    pub actions: [u8; MOST_ACTIONS],
}

/// "Narrowing is a use of ReduceACL, with one hint per new group."
pub fn narrow(
    ledger: &Ledger,
    km0: &[u8],
    acl: &[u8],
    request: &[u8],
    new_acl: &[u8],
    hints: &[u8],
) -> Result<(usize, Ledger), Refusal> {
    check_km0_length(km0)?;
    check_acl_length(acl)?;
    check_request_length(request)?;
    check_acl_length(new_acl)?;
    check_length(hints, MOST_HINTS)?;
    let acl = read_acl(acl)?;
    let (request, presented) = read_request(request, Some(REDUCE_ACL))?;
    let new_acl = read_acl(new_acl)?;
    let hints = read_hints(hints)?;
    let (place, charged) = grant(ledger, km0, &acl, &request, &presented)?;
    if !is_narrowing(&acl, &new_acl, &hints) {
        return Err(Refusal::NotNarrower);
    }
    Ok((place, with_moved_counts(&charged, &hints)))
}

/// "Expansion is a use of ExpandACL and zeroes all group counts."
pub fn expand(
    ledger: &Ledger,
    km0: &[u8],
    acl: &[u8],
    request: &[u8],
    new_acl: &[u8],
) -> Result<(usize, Ledger), Refusal> {
    check_km0_length(km0)?;
    check_acl_length(acl)?;
    check_request_length(request)?;
    check_acl_length(new_acl)?;
    let acl = read_acl(acl)?;
    let (request, presented) = read_request(request, Some(EXPAND_ACL))?;
    read_acl(new_acl)?;
    let (place, mut charged) = grant(ledger, km0, &acl, &request, &presented)?;
    charged.group_counts = [0; MOST_GROUPS];
    Ok((place, charged))
}

pub fn read_hints(file: &[u8]) -> Result<Vec<Hint>, Refusal> {
    records(file).map(read_hint).collect()
}

/// What a hint names is a matter of refusal 8; only its shape is a matter of 2.
pub fn read_hint(record: Record) -> Result<Hint, Refusal> {
    malformed_unless(record.kind() == 13)?;
    record.check_zeros(0, &[(4, 4), (8, 15)])?;
    let mut hint = Hint {
        source: record.byte(4),
        actions: [0; MOST_ACTIONS],
    };
    for (place, action) in hint.actions.iter_mut().enumerate() {
        *action = record.byte(8 + place);
    }
    Ok(hint)
}

/// "Each new group takes its source's count after charging; counts past the last new group are
/// zero."
fn with_moved_counts(charged: &Ledger, hints: &[Hint]) -> Ledger {
    let mut ledger = charged.clone();
    ledger.group_counts = [0; MOST_GROUPS];
    for (place, hint) in hints.iter().enumerate() {
        ledger.group_counts[place] = charged.group_counts[usize::from(hint.source)];
    }
    ledger
}

/// "Any breach, a hint too few or too many, or one naming nothing gives 8."
pub fn is_narrowing(old: &Acl, new: &Acl, hints: &[Hint]) -> bool {
    let one_hint_each = hints.len() == new.groups.len();
    let sources_rise = hints.windows(2).all(|pair| pair[0].source < pair[1].source);
    one_hint_each
        && sources_rise
        && new.groups.iter().zip(hints).all(|(group, hint)| {
            match old.groups.get(usize::from(hint.source)) {
                Some(source) => group_is_narrower(group, source, hint),
                None => false,
            }
        })
}

fn group_is_narrower(new: &Group, source: &Group, hint: &Hint) -> bool {
    let limits_kept = source
        .limits
        .iter()
        .all(|old| limit_is_answered(old, &new.limits));
    keeps_certification(source, new) && limits_kept && actions_are_narrower(new, source, hint)
}

/// "Keeps any certifier and mechanism (it may add them)."
pub fn keeps_certification(source: &Group, new: &Group) -> bool {
    kept(&source.certifier, &new.certifier) && kept(&source.mechanism, &new.mechanism)
}

/// A restriction is "kept equal or added": what the source has, the new one has too.
fn kept<T: PartialEq>(source: &Option<T>, new: &Option<T>) -> bool {
    source.is_none() || source == new
}

/// "Answers each old limit by one of the same sort and counter with a maximum no larger."
pub fn limit_is_answered(old: &Limit, new_limits: &[Limit]) -> bool {
    new_limits
        .iter()
        .any(|new| new.sort == old.sort && new.maximum <= old.maximum)
}

/// "Each action is of the hinted action's kind and no wider. [...] Unused action bytes are zero."
fn actions_are_narrower(new: &Group, source: &Group, hint: &Hint) -> bool {
    let (used, unused) = hint.actions.split_at(new.actions.len());
    let used_good = new.actions.iter().zip(used).all(|(action, &named)| {
        match source.actions.get(usize::from(named)) {
            Some(hinted) => action_is_narrower(action, hinted),
            None => false,
        }
    });
    used_good && unused.iter().all(|&byte| byte == 0)
}

pub fn action_is_narrower(new: &Action, source: &Action) -> bool {
    let no_wider = match (new, source) {
        // "Subset of permission bits."
        (Action::OpPermissions(new), Action::OpPermissions(old)) => new & !old == 0,
        (Action::MakeBlob(new), Action::MakeBlob(old)) => blob_is_narrower(new, old),
        // "Restrictions kept equal or added [...] same mechanism."
        (Action::MakeArchiveBlob(new), Action::MakeArchiveBlob(old)) => {
            kept(&old.kahash, &new.kahash) && new.mechanism == old.mechanism
        }
        _ => false,
    };
    no_wider && blobfile_is_narrower(&new.blobfile(), &source.blobfile())
}

/// "Allowing flags a subset; restrictions kept equal or added, ktparams kept or tighter."
fn blob_is_narrower(new: &MakeBlob, old: &MakeBlob) -> bool {
    let flags_subset = (old.allow_km_only || !new.allow_km_only)
        && (old.allow_non_km0 || !new.allow_non_km0)
        && (old.allow_null_km_token || !new.allow_null_km_token);
    let parameters_good = match (old.ktparams, new.ktparams) {
        (None, _) => true,
        (Some(_), None) => false,
        (Some(old), Some(new)) => new.no_looser_than(old),
    };
    flags_subset
        && kept(&old.kmhash, &new.kmhash)
        && kept(&old.kthash, &new.kthash)
        && parameters_good
}

#[cfg(test)]
mod tests {
    use super::*;
    use crate::acl::Sort;
    use crate::encode;
    use crate::record::Hash;
    use crate::request::{Asked, Presented, Request};

    const KM0: Hash = [0; 20];

    fn group(bits: u16) -> Group {
        Group {
            actions: vec![Action::OpPermissions(bits)],
            ..Group::default()
        }
    }

    fn hint(source: u8) -> Hint {
        Hint {
            source,
            actions: [0; 8],
        }
    }

    fn use_at(permission: u8, time: u64) -> Vec<u8> {
        encode::request(
            &Request {
                asked: Asked::Use(permission),
                time,
                blobfile: None,
            },
            &Presented::default(),
        )
    }

    #[test]
    fn counts_move_with_their_groups() {
        let counted = Group {
            limits: vec![Limit {
                sort: Sort::Counter(7),
                maximum: 9,
            }],
            ..group(1 << REDUCE_ACL)
        };
        let old = Acl {
            groups: vec![group(16), group(16), counted],
        };
        let new = Acl {
            groups: vec![old.groups[1].clone(), old.groups[2].clone()],
        };
        let mut ledger = Ledger::fresh();
        ledger.group_counts[..4].copy_from_slice(&[5, 6, 7, 8]);
        let files = (
            encode::acl(&old),
            encode::acl(&new),
            encode::hints(&[hint(1), hint(2)]),
        );
        let reply = narrow(
            &ledger,
            &KM0,
            &files.0,
            &use_at(REDUCE_ACL, 3),
            &files.1,
            &files.2,
        );
        let (place, after) = reply.unwrap();
        assert_eq!(place, 2);
        assert_eq!(after.group_counts[..4], [6, 8, 0, 0]);
        assert_eq!((after.counters[7], after.last_time), (1, 3));
    }

    #[test]
    fn two_new_groups_never_share_one_source() {
        let old = Acl {
            groups: vec![group(0xffff), group(0xffff)],
        };
        let new = Acl {
            groups: vec![group(1), group(2)],
        };
        assert!(is_narrowing(&old, &new, &[hint(0), hint(1)]));
        assert!(!is_narrowing(&old, &new, &[hint(1), hint(1)]));
        assert!(!is_narrowing(&old, &new, &[hint(1), hint(0)]));
        assert!(!is_narrowing(&old, &new, &[hint(0), hint(2)]));
        assert!(!is_narrowing(&old, &new, &[hint(0)]));
    }

    #[test]
    fn an_empty_acl_with_no_hints_is_a_narrowing() {
        let old = encode::acl(&Acl {
            groups: vec![group(1 << REDUCE_ACL)],
        });
        let reply = narrow(
            &Ledger::fresh(),
            &KM0,
            &old,
            &use_at(REDUCE_ACL, 0),
            &[],
            &[],
        );
        assert_eq!(reply, Ok((0, Ledger::fresh())));
    }

    #[test]
    fn an_expansion_zeroes_every_group_count() {
        let counted = Group {
            limits: vec![Limit {
                sort: Sort::Counter(0),
                maximum: 9,
            }],
            ..group(1 << EXPAND_ACL)
        };
        let old = encode::acl(&Acl {
            groups: vec![counted],
        });
        let mut ledger = Ledger::fresh();
        ledger.group_counts = [3; MOST_GROUPS];
        let (place, after) = expand(&ledger, &KM0, &old, &use_at(EXPAND_ACL, 4), &old).unwrap();
        assert_eq!((place, after.group_counts), (0, [0; MOST_GROUPS]));
        assert_eq!((after.counters[0], after.last_time), (1, 4));
        let other = expand(&ledger, &KM0, &old, &use_at(REDUCE_ACL, 4), &old);
        assert_eq!(other, Err(Refusal::Malformed));
    }
}
