use super::*;
use crate::acl::{Action, Limit, MakeArchiveBlob, MakeBlob, Sort, MOST_ACTIONS};
use crate::answer::Answer;
use crate::blobfile::BlobFile;
use crate::call::Call;
use crate::encode;
use crate::generate::calls_of;
use crate::make_breach::BREACHES;
use crate::maker::Maker;
use crate::place::Place;
use crate::record::Hash;
use crate::replace::is_narrowing;
use crate::request::{Asked, Presented};

const KM0: Hash = [7; 20];
const SIGN: u8 = 4;

fn use_at(permission: u8, time: u64) -> Vec<u8> {
    let request = Request {
        asked: Asked::Use(permission),
        time,
        blobfile: None,
    };
    encode::request(&request, &Presented::default())
}

fn limit(sort: Sort, maximum: u32) -> Limit {
    Limit { sort, maximum }
}

fn group(actions: &[Action], limits: &[Limit]) -> Group {
    Group {
        actions: actions.to_vec(),
        limits: limits.to_vec(),
        ..Group::default()
    }
}

fn uses(bits: u16) -> Action {
    Action::OpPermissions(bits)
}

/// A group for Sign, ReduceACL and ExpandACL with these limits.
fn any_use(limits: &[Limit]) -> Group {
    group(&[uses(0x1014)], limits)
}

fn file(groups: &[Group]) -> Vec<u8> {
    let groups = groups.to_vec();
    encode::acl(&Acl { groups })
}

fn numbers(place: CallPlace) -> String {
    Place::Call(place).words()["place ".len()..].to_string()
}

fn asked(ledger: &Ledger, km0: &[u8], acl: &[u8], request: &[u8]) -> String {
    numbers(locate_request(ledger, km0, acl, request))
}

/// The place behind the narrowing of a file, of groups, with these hints.
fn narrowed(old: &[Group], new: &[Group], hints: &[Hint]) -> String {
    let mut source = old.to_vec();
    // The request is permitted by the last group, which no hint names.
    source.push(any_use(&[]));
    let (acl, new_acl) = (file(&source), file(new));
    let ledger = Ledger::fresh();
    let request = use_at(REDUCE_ACL, 0);
    let hints = encode::hints(hints);
    numbers(locate_narrow(
        &ledger, &KM0, &acl, &request, &new_acl, &hints,
    ))
}

fn hint(source: u8, actions: &[u8]) -> Hint {
    let mut bytes = [0; MOST_ACTIONS];
    bytes[..actions.len()].copy_from_slice(actions);
    Hint {
        source,
        actions: bytes,
    }
}

#[test]
fn permitted_calls_name_nothing() {
    let (ledger, acl) = (Ledger::fresh(), file(&[any_use(&[])]));
    assert_eq!(
        asked(&ledger, &KM0, &acl, &use_at(SIGN, 0)),
        "0 0 0 - - 0 -"
    );
    let request = use_at(EXPAND_ACL, 0);
    let place = locate_expand(&ledger, &KM0, &acl, &request, &acl);
    assert_eq!(numbers(place), "0 0 0 - - 0 -");
    assert_eq!(narrowed(&[], &[], &[]), "0 0 0 - - 0 -");
}

#[test]
fn lengths_in_the_order_of_the_inputs() {
    let ledger = Ledger::fresh();
    let good: [&[u8]; 5] = [&KM0, &[], &[], &[], &[]];
    let bad: [&[u8]; 5] = [&[7; 19], &[0; 65], &[0; 51 * 64], &[0; 63], &[0; 65 * 64]];
    for first in 0..5 {
        // Every input from this one on is bad; the records would all be bad too.
        let mut lent = good;
        lent[first..].copy_from_slice(&bad[first..]);
        let [km0, acl, request, new, hints] = lent;
        let at = |last: usize| if first < last { first + 1 } else { 0 };
        let narrow = numbers(locate_narrow(&ledger, km0, acl, request, new, hints));
        assert_eq!(narrow, format!("1 {} 1 - - 0 -", first + 1));
        let expand = numbers(locate_expand(&ledger, km0, acl, request, new));
        let request = asked(&ledger, km0, acl, request);
        for (place, last) in [(expand, 4), (request, 3)] {
            match at(last) {
                0 => assert_eq!(place, "2 3 3 0 - 0 -"),
                input => assert_eq!(place, format!("1 {input} 1 - - 0 -")),
            }
        }
    }
}

#[test]
fn records_in_the_order_of_the_inputs() {
    let ledger = Ledger::fresh();
    let bad = [[1; 64], [9; 64]].concat();
    let group = file(&[Group::default()]);
    let both = [group.clone(), bad.clone()].concat();
    let (narrow, expand) = (use_at(REDUCE_ACL, 0), use_at(EXPAND_ACL, 0));
    let place = |acl: &[u8], request: &[u8], new: &[u8], hints: &[u8]| {
        numbers(locate_narrow(&ledger, &KM0, acl, request, new, hints))
    };
    assert_eq!(place(&both, &bad, &bad, &bad), "2 2 2 1 - 0 -");
    assert_eq!(place(&group, &bad, &bad, &bad), "2 3 2 0 - 0 -");
    assert_eq!(place(&group, &[], &bad, &bad), "2 3 3 0 - 0 -");
    assert_eq!(place(&group, &narrow, &both, &bad), "2 4 2 1 - 0 -");
    assert_eq!(place(&group, &narrow, &group, &bad), "2 5 2 0 - 0 -");
    // Another request, before what is presented with it is looked at.
    let other = [use_at(SIGN, 0), bad.clone()].concat();
    assert_eq!(place(&group, &other, &bad, &bad), "2 3 2 0 - 0 -");
    let presented = [narrow.clone(), bad.clone()].concat();
    assert_eq!(place(&group, &presented, &bad, &bad), "2 3 2 1 - 0 -");
    let place =
        |request: &[u8], new: &[u8]| numbers(locate_expand(&ledger, &KM0, &group, request, new));
    assert_eq!(place(&narrow, &bad), "2 3 2 0 - 0 -");
    assert_eq!(place(&expand, &bad), "2 4 2 0 - 0 -");
    // 3 and 12, and an end where a record of kind 15 must come next.
    assert_eq!(place(&expand, &group.repeat(65)), "3 4 2 64 - 0 -");
    let mut open = [0; 64];
    (open[0], open[25]) = (5, 1);
    assert_eq!(
        place(&expand, &[&group[..], &open].concat()),
        "12 4 2 1 - 0 -"
    );
    let mut stored = [0; 64];
    (stored[0], stored[3]) = (4, 0b100_0001);
    assert_eq!(
        place(&expand, &[&group[..], &stored].concat()),
        "2 4 3 2 - 0 -"
    );
}

#[test]
fn early_and_not_admitted_name_nothing_more() {
    let ledger = Ledger::fresh().loaded(100);
    let acl = file(&[any_use(&[])]);
    assert_eq!(
        asked(&ledger, &KM0, &acl, &use_at(SIGN, 99)),
        "4 0 0 - - 0 -"
    );
    assert_eq!(asked(&ledger, &KM0, &acl, &use_at(9, 100)), "5 0 0 - - 0 -");
    assert_eq!(
        asked(&ledger, &KM0, &[], &use_at(SIGN, 100)),
        "5 0 0 - - 0 -"
    );
}

#[test]
fn the_nearest_group() {
    let certified = Group {
        certifier: Some([1; 20]),
        ..any_use(&[])
    };
    let acl = file(&[group(&[uses(1)], &[]), certified.clone(), certified]);
    let ledger = Ledger::fresh();
    assert_eq!(
        asked(&ledger, &KM0, &acl, &use_at(SIGN, 0)),
        "6 0 0 - 1 0 -"
    );
}

#[test]
fn the_first_spent_limit() {
    let mut ledger = Ledger::fresh().loaded(10);
    ledger.group_counts[..2].copy_from_slice(&[2, 5]);
    ledger.counters[9] = 3;
    let rows = [
        // Two of the limits are spent; the first in record order is named.
        (
            vec![
                limit(Sort::SecondsSinceLoad, 9),
                limit(Sort::UsesPerLoad, 5),
                limit(Sort::Counter(9), 3),
            ],
            "7 0 0 - 1 5 1",
        ),
        (
            vec![
                limit(Sort::SecondsSinceLoad, 8),
                limit(Sort::UsesPerLoad, 5),
            ],
            "7 0 0 - 1 5 0",
        ),
        (
            vec![limit(Sort::UsesPerLoad, 6), limit(Sort::Counter(9), 2)],
            "7 0 0 - 1 5 1",
        ),
        (vec![limit(Sort::Counter(8), 0)], "7 0 0 - 1 5 0"),
    ];
    for (limits, expected) in rows {
        // A group that does not admit comes first, and one that is spent too comes last.
        let none = group(&[uses(1)], &[]);
        let acl = file(&[none, any_use(&limits), any_use(&limits)]);
        assert_eq!(asked(&ledger, &KM0, &acl, &use_at(SIGN, 18)), expected);
    }
}

#[test]
fn a_full_count() {
    let mut ledger = Ledger::fresh();
    ledger.group_counts[0] = u32::MAX;
    let acl = file(&[any_use(&[limit(Sort::SecondsSinceLoad, 1)])]);
    assert_eq!(
        asked(&ledger, &KM0, &acl, &use_at(SIGN, 0)),
        "7 0 0 - 0 6 -"
    );
    // Full and spent: the limit is named.
    assert_eq!(
        asked(&ledger, &KM0, &acl, &use_at(SIGN, 1)),
        "7 0 0 - 0 5 0"
    );
    let acl = file(&[any_use(&[limit(Sort::UsesPerLoad, u32::MAX)])]);
    assert_eq!(
        asked(&ledger, &KM0, &acl, &use_at(SIGN, 0)),
        "7 0 0 - 0 5 0"
    );
    let expand = use_at(EXPAND_ACL, 0);
    let place = locate_expand(&ledger, &KM0, &acl, &expand, &[]);
    assert_eq!(numbers(place), "7 0 0 - 0 5 0");
}

#[test]
fn the_hint_that_shows_nothing() {
    let one = group(&[uses(3)], &[]);
    let old = [one.clone(), one.clone()];
    let two = [one.clone(), one.clone()];
    let sound = [hint(0, &[]), hint(1, &[])];
    assert_eq!(narrowed(&old, &two, &sound), "0 0 0 - - 0 -");
    // None for the second group; none at all; one left over.
    assert_eq!(narrowed(&old, &two, &sound[..1]), "8 0 0 - 1 1 -");
    assert_eq!(narrowed(&old, &two, &[]), "8 0 0 - 0 1 -");
    assert_eq!(narrowed(&old, &two[..1], &sound), "8 0 0 - 1 1 -");
    assert_eq!(narrowed(&old, &[], &sound), "8 0 0 - 0 1 -");
    // Not above the one before; no group; no action; a byte past the actions.
    assert_eq!(narrowed(&old, &two, &[sound[0], sound[0]]), "8 0 0 - 1 1 -");
    assert_eq!(narrowed(&old, &two, &[sound[1], sound[0]]), "8 0 0 - 1 1 -");
    assert_eq!(
        narrowed(&old, &two, &[hint(0, &[]), hint(3, &[])]),
        "8 0 0 - 1 1 -"
    );
    assert_eq!(
        narrowed(&old, &two, &[hint(0, &[1]), sound[1]]),
        "8 0 0 - 0 1 -"
    );
    assert_eq!(
        narrowed(&old, &two, &[sound[0], hint(1, &[0, 0, 1])]),
        "8 0 0 - 1 1 -"
    );
    // A leftover hint comes after a group that is wider.
    let wide = group(&[uses(7)], &[]);
    assert_eq!(narrowed(&old, &[wide], &sound), "8 0 0 - 0 4 0");
}

#[test]
fn what_breaks_a_group_in_its_order() {
    let limits = [limit(Sort::UsesPerLoad, 3), limit(Sort::Counter(7), 4)];
    let source = Group {
        certifier: Some([1; 20]),
        mechanism: Some(2),
        ..group(&[uses(3), uses(8)], &limits)
    };
    let kept = group(&[uses(1)], &[]);
    let old = [kept.clone(), source.clone()];
    let row = |new: Group, actions: &[u8], expected: &str| {
        let hints = [hint(0, &[]), hint(1, actions)];
        let words = narrowed(&old, &[kept.clone(), new], &hints);
        assert_eq!(words, format!("8 0 0 - 1 {expected}"));
    };
    let broken = Group {
        mechanism: Some(3),
        ..group(&[uses(16), uses(16)], &limits[1..])
    };
    let dropped = Group {
        certifier: None,
        mechanism: None,
        ..broken.clone()
    };
    let certified = Group {
        certifier: source.certifier,
        mechanism: source.mechanism,
        ..broken.clone()
    };
    row(dropped.clone(), &[0, 2], "1 -");
    row(dropped, &[0, 1], "2 -");
    let other_mechanism = Group {
        certifier: source.certifier,
        ..broken
    };
    row(other_mechanism, &[0, 1], "2 -");
    row(certified.clone(), &[0, 1], "3 0");
    // The source's limits in their order: the first is answered, the second has a larger maximum.
    let larger = [limit(Sort::Counter(7), 5), limit(Sort::UsesPerLoad, 3)];
    let more = Group {
        limits: larger.to_vec(),
        ..certified.clone()
    };
    row(more, &[0, 1], "3 1");
    let other_counter = Group {
        limits: vec![limits[0], limit(Sort::Counter(8), 4)],
        ..certified.clone()
    };
    row(other_counter, &[0, 1], "3 1");
    // The new group's actions in their order; each against the action that its byte names.
    let wider = |actions: &[Action]| Group {
        limits: limits.to_vec(),
        actions: actions.to_vec(),
        ..certified.clone()
    };
    row(wider(&[uses(16), uses(16)]), &[0, 1], "4 0");
    row(
        wider(&[uses(8), uses(2), uses(8), uses(1)]),
        &[1, 0, 0, 1],
        "4 2",
    );
}

#[test]
fn an_action_of_another_kind_or_wider() {
    let blob = Action::MakeBlob(MakeBlob::default());
    let archive = |kahash| {
        Action::MakeArchiveBlob(MakeArchiveBlob {
            kahash,
            mechanism: 1,
            blobfile: None,
        })
    };
    let stored = Action::MakeBlob(MakeBlob {
        blobfile: Some(BlobFile::default()),
        ..MakeBlob::default()
    });
    let old = [group(&[uses(3), blob.clone(), archive(Some([1; 20]))], &[])];
    for (actions, bytes, expected) in [
        (vec![uses(3), blob.clone()], vec![0, 0], "4 1"),
        (vec![uses(3), uses(0)], vec![0, 1], "4 1"),
        (vec![archive(Some([2; 20]))], vec![2], "4 0"),
        // Kind 15 does not count as an action.
        (vec![blob.clone(), stored, uses(9)], vec![1, 1, 0], "4 1"),
        (
            vec![blob, archive(Some([1; 20])), uses(9)],
            vec![1, 2, 0],
            "4 2",
        ),
    ] {
        let words = narrowed(&old, &[group(&actions, &[])], &[hint(0, &bytes)]);
        assert_eq!(words, format!("8 0 0 - 0 {expected}"));
    }
}

/// A refused narrowing has its group, and one that is shown has none.
#[test]
fn a_breach_is_located_where_there_is_one() {
    let mut maker = Maker::new(11, true);
    for round in 0..4000 {
        let old = maker.acl();
        let mut narrowing = maker.narrowing(&old, 20);
        if round % 3 > 0 {
            let breach = maker.random.pick(&BREACHES);
            maker.breaks(&mut narrowing, breach);
        }
        let shown = is_narrowing(&narrowing.old, &narrowing.new, &narrowing.hints);
        let place = check_narrowing(&narrowing.old, &narrowing.new, &narrowing.hints);
        assert_eq!(place.is_ok(), shown, "{narrowing:?}");
    }
}

/// The number is the call's own.
#[test]
fn the_refusal_is_the_calls() {
    let mut located = 0;
    for (before, call, answer) in calls_of(5, 4000, "FLCRNXK") {
        let refusal = match answer {
            Answer::Refuse(refusal) => refusal,
            _ => continue,
        };
        let place = match &call {
            Call::Request { km0, acl, request } => locate_request(&before, km0, acl, request),
            Call::Narrow {
                km0,
                acl,
                request,
                new_acl,
                hints,
            } => locate_narrow(&before, km0, acl, request, new_acl, hints),
            Call::Expand {
                km0,
                acl,
                request,
                new_acl,
            } => locate_expand(&before, km0, acl, request, new_acl),
            _ => continue,
        };
        assert_eq!(place.refusal, refusal.number());
        if (6..=7).contains(&place.refusal) {
            assert_eq!(place.group, refusal.beside());
        }
        located += 1;
    }
    assert!(located > 1000);
}
