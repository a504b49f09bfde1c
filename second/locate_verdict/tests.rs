use super::*;
use crate::acl::{Group, MakeArchiveBlob, MakeBlob, TokenParameters};
use crate::blobfile::BlobFile;
use crate::bundle::Policy;
use crate::desk::{attest, Verdict};
use crate::encode;
use crate::make_fault::FIRST_STEPS;
use crate::maker::Maker;
use crate::place::Place;
use crate::record::Hash;

const OFFICER: Hash = [4; 20];
const MODULE_KEY: Hash = [6; 20];

/// A bundle that passes every step under approach 2; signing and encryption are admitted.
fn good_bundle() -> Bundle {
    let mut facts = [None; 14];
    for (field, fact) in facts.iter_mut().enumerate().skip(1) {
        *fact = Some([field as u8; 20]);
    }
    facts[ESN_OF_STATE] = facts[ESN_OF_WARRANT];
    facts[KNSOPUB_HASH] = Some(OFFICER);
    facts[PUBKEYDATA_HASH] = facts[KCMSG_KEY_HASH];
    facts[CSR_KEY] = facts[KCMSG_KEY_HASH];
    let mut signatures = [Some(true); 7];
    signatures[0] = None;
    Bundle {
        facts,
        listed: vec![MODULE_KEY],
        signatures,
        policy: Policy {
            suite: 3,
            approach: 2,
            bits: 7,
            lowest_protection: 1,
        },
    }
}

fn numbers(bundle: &[u8], acl: &[u8]) -> String {
    let place = Place::Verdict(locate_verdict(bundle, acl));
    place.words()["place ".len()..].to_string()
}

fn of_acl(bundle: &Bundle, groups: &[Group]) -> String {
    let acl = Acl {
        groups: groups.to_vec(),
    };
    numbers(&encode::bundle(bundle), &encode::acl(&acl))
}

fn group(actions: &[Action]) -> Group {
    Group {
        actions: actions.to_vec(),
        ..Group::default()
    }
}

fn uses(bits: u16) -> Action {
    Action::OpPermissions(bits)
}

fn cardset() -> MakeBlob {
    let parameters = TokenParameters {
        flags: 0,
        needed: 1,
        total: 1,
        time_limit: 0,
    };
    MakeBlob {
        kmhash: Some(MODULE_KEY),
        kthash: Some([8; 20]),
        ktparams: Some(parameters),
        ..MakeBlob::default()
    }
}

fn module_only() -> MakeBlob {
    MakeBlob {
        allow_km_only: true,
        kmhash: Some(MODULE_KEY),
        ..MakeBlob::default()
    }
}

#[test]
fn an_acceptance_names_nothing() {
    let mut bundle = good_bundle();
    let groups = [group(&[uses(0x3ff), Action::MakeBlob(cardset())])];
    assert_eq!(of_acl(&bundle, &groups), "0 0 0 0 - 0 0 - - -");
    bundle.policy.approach = 1;
    assert_eq!(
        of_acl(&bundle, &[group(&[uses(0xffff)])]),
        "0 0 0 0 - 0 0 - - -"
    );
}

#[test]
fn faults_of_the_inputs() {
    let bundle = encode::bundle(&good_bundle());
    let bad_acl = [[1; 64], [1; 64]].concat();
    assert_eq!(numbers(&bundle[1..], &bad_acl[1..]), "1 0 6 1 - 0 0 - - -");
    assert_eq!(numbers(&[0; 53 * 64], &bad_acl[1..]), "1 0 6 1 - 0 0 - - -");
    assert_eq!(numbers(&[], &bad_acl[1..]), "1 0 2 1 - 0 0 - - -");
    let mut bad_bundle = bundle.clone();
    bad_bundle[2 * 64 + 1] = 1;
    assert_eq!(numbers(&bad_bundle, &bad_acl), "2 0 6 2 2 0 0 - - -");
    let without_policy = &bundle[..bundle.len() - 64];
    assert_eq!(numbers(without_policy, &bad_acl), "2 0 6 3 20 0 0 - - -");
    assert_eq!(numbers(&[], &bad_acl), "2 0 6 3 0 0 0 - - -");
    assert_eq!(numbers(&bundle, &bad_acl), "2 0 2 2 0 0 0 - - -");
    let groups = encode::acl(&Acl {
        groups: vec![Group::default(); 65],
    });
    assert_eq!(numbers(&bundle, &groups), "3 0 2 2 64 0 0 - - -");
    let open = Action::MakeArchiveBlob(MakeArchiveBlob {
        kahash: None,
        mechanism: 2,
        blobfile: None,
    });
    assert_eq!(
        of_acl(&good_bundle(), &[group(&[open])]),
        "12 0 2 2 1 0 0 - - -"
    );
    // An unknown suite, after every record: the policy's, which is the last one.
    let mut unknown = good_bundle();
    unknown.policy.suite = 6;
    assert_eq!(of_acl(&unknown, &[]), "11 0 6 2 20 0 0 - - -");
    unknown.signatures[WARRANT] = None;
    assert_eq!(
        numbers(&encode::bundle(&unknown), &bad_acl),
        "2 0 2 2 0 0 0 - - -"
    );
}

#[test]
fn steps_of_the_bundle() {
    const A: Option<bool> = None;
    const BAD: Option<bool> = Some(false);
    // A signature, what becomes of it; the step's number, what, and the signature.
    let signatures = [
        (1, A, "0 1 0 0 - 1 1 - - -"),
        (1, BAD, "0 1 0 0 - 2 1 - - -"),
        (2, A, "0 2 0 0 - 1 2 - - -"),
        (2, BAD, "0 2 0 0 - 2 2 - - -"),
        (3, BAD, "0 7 0 0 - 2 3 - - -"),
        (4, BAD, "0 8 0 0 - 2 4 - - -"),
        (5, BAD, "0 9 0 0 - 2 5 - - -"),
        (6, A, "0 10 0 0 - 1 6 - - -"),
        (6, BAD, "0 10 0 0 - 2 6 - - -"),
        (3, A, "0 0 0 0 - 0 0 - - -"),
    ];
    for (number, outcome, expected) in signatures {
        let mut bundle = good_bundle();
        bundle.signatures[number] = outcome;
        assert_eq!(of_acl(&bundle, &[]), expected, "signature {number}");
    }
    // A field that is absent. Signatures 3, 4 and 5 are all there.
    let absent = [
        (1, "0 1 0 0 - 3 1 - - -"),
        (2, "0 3 0 0 - 3 2 - - -"),
        (3, "0 3 0 0 - 3 3 - - -"),
        (4, "0 5 0 0 - 3 4 - - -"),
        (5, "0 7 0 0 - 3 5 - - -"),
        (6, "0 7 0 0 - 3 6 - - -"),
        (7, "0 9 0 0 - 3 7 - - -"),
        (8, "0 11 0 0 - 3 8 - - -"),
        (9, "0 11 0 0 - 3 9 - - -"),
        (10, "0 21 0 0 - 3 10 - - -"),
        (11, "0 9 0 0 - 3 11 - - -"),
        (12, "0 7 0 0 - 3 12 - - -"),
        (13, "0 8 0 0 - 3 13 - - -"),
    ];
    for (field, expected) in absent {
        let mut bundle = good_bundle();
        bundle.facts[field] = None;
        assert_eq!(of_acl(&bundle, &[]), expected, "field {field}");
    }
    // A field that is another one.
    let changed = [
        (1, "0 4 0 0 - 4 2 - - -"),
        (2, "0 4 0 0 - 4 2 - - -"),
        (4, "0 5 0 0 - 4 5 - - -"),
        (5, "0 5 0 0 - 4 5 - - -"),
        (6, "0 6 0 0 - 4 6 - - -"),
        (8, "0 11 0 0 - 4 8 - - -"),
        (9, "0 11 0 0 - 4 8 - - -"),
        (10, "0 21 0 0 - 4 10 - - -"),
    ];
    for (field, expected) in changed {
        let mut bundle = good_bundle();
        bundle.facts[field] = Some([0xff; 20]);
        assert_eq!(of_acl(&bundle, &[]), expected, "field {field}");
    }
}

#[test]
fn the_first_that_fails_in_the_order_of_the_paper() {
    let mut bundle = good_bundle();
    for field in [5, 6, 12, 13] {
        bundle.facts[field] = None;
    }
    assert_eq!(of_acl(&bundle, &[]), "0 7 0 0 - 3 5 - - -");
    bundle.signatures[CERT_KM_KMC] = None;
    assert_eq!(of_acl(&bundle, &[]), "0 8 0 0 - 3 5 - - -");
    bundle.signatures[CERT_KM_KMC_KFIPS] = Some(false);
    assert_eq!(of_acl(&bundle, &[]), "0 8 0 0 - 2 4 - - -");
    bundle.signatures[CERT_KM_KMC_KFIPS] = None;
    assert_eq!(of_acl(&bundle, &[]), "0 9 0 0 - 3 5 - - -");
    (bundle.facts[1], bundle.signatures[WARRANT]) = (None, Some(false));
    assert_eq!(of_acl(&bundle, &[]), "0 1 0 0 - 2 1 - - -");
    let mut both = good_bundle();
    (both.facts[8], both.facts[9], both.facts[10]) = (None, None, None);
    assert_eq!(of_acl(&both, &[]), "0 11 0 0 - 3 8 - - -");
}

#[test]
fn approach_1_names_its_own_steps() {
    let mut bundle = good_bundle();
    bundle.policy.approach = 1;
    (bundle.facts[4], bundle.facts[6]) = (None, Some([0xff; 20]));
    let forbidden = [group(&[uses(0x400)])];
    assert_eq!(of_acl(&bundle, &forbidden), "0 0 0 0 - 0 0 - - -");
    bundle.facts[10] = Some([0; 20]);
    assert_eq!(of_acl(&bundle, &forbidden), "0 21 0 0 - 4 10 - - -");
    bundle.facts[3] = None;
    assert_eq!(of_acl(&bundle, &forbidden), "0 3 0 0 - 3 3 - - -");
}

#[test]
fn the_first_action_that_fails_a_step() {
    let bundle = good_bundle();
    let officers = Group {
        certifier: Some(OFFICER),
        ..group(&[uses(0xffff), uses(0x8000)])
    };
    let stored = Action::MakeBlob(MakeBlob {
        blobfile: Some(BlobFile::default()),
        ..cardset()
    });
    // The officer's group is skipped, and counts; a blobfile record does not.
    let failing = group(&[uses(0x3ff), stored, uses(0x8c10), uses(0x400)]);
    let groups = [officers, group(&[]), failing];
    assert_eq!(of_acl(&bundle, &groups), "0 12 0 0 - 0 0 2 2 10");
    let mut strict = bundle.clone();
    strict.policy.bits = 2;
    assert_eq!(of_acl(&strict, &groups), "0 12 0 0 - 0 0 2 0 4");
    strict.policy.bits = 1;
    assert_eq!(of_acl(&strict, &groups), "0 12 0 0 - 0 0 2 0 8");
    let blob = |change: fn(&mut MakeBlob)| {
        let mut blob = cardset();
        change(&mut blob);
        Action::MakeBlob(blob)
    };
    let archive = |key: u8, mechanism| {
        Action::MakeArchiveBlob(MakeArchiveBlob {
            kahash: Some([key; 20]),
            mechanism,
            blobfile: None,
        })
    };
    for (action, step) in [
        (blob(|blob| blob.kthash = None), 13),
        (blob(|blob| blob.kmhash = None), 14),
        (blob(|blob| blob.allow_null_km_token = true), 15),
        (blob(|blob| blob.ktparams = None), 16),
        (archive(9, 2), 18),
        (archive(7, 1), 19),
    ] {
        let groups = [group(&[uses(1)]), group(&[archive(7, 2), action])];
        let expected = format!("0 {step} 0 0 - 0 0 1 1 -");
        assert_eq!(of_acl(&bundle, &groups), expected);
    }
    let mut untrusted = bundle.clone();
    untrusted.signatures[CERT_KRE_KRA] = None;
    let recovered = [group(&[archive(7, 2)])];
    assert_eq!(of_acl(&untrusted, &recovered), "0 17 0 0 - 0 0 0 0 -");
}

#[test]
fn the_first_blob_below_the_lowest_protection() {
    let mut bundle = good_bundle();
    bundle.policy.lowest_protection = 3;
    let mut softcard = cardset();
    if let Some(parameters) = &mut softcard.ktparams {
        parameters.flags = 1;
    }
    let blob = |blob: &MakeBlob| Action::MakeBlob(blob.clone());
    let officers = Group {
        certifier: Some(OFFICER),
        ..group(&[blob(&module_only())])
    };
    let mixed = group(&[
        blob(&cardset()),
        uses(1),
        blob(&softcard),
        blob(&module_only()),
    ]);
    assert_eq!(
        of_acl(&bundle, &[officers.clone(), mixed]),
        "0 20 0 0 - 0 0 1 2 -"
    );
    assert_eq!(of_acl(&bundle, &[officers]), "0 0 0 0 - 0 0 - - -");
    bundle.policy.lowest_protection = 4;
    let groups = [group(&[uses(1), blob(&cardset())])];
    assert_eq!(of_acl(&bundle, &groups), "0 20 0 0 - 0 0 0 1 -");
}

/// The refusal or the step is the desk's own.
#[test]
fn the_step_is_the_desks() {
    let mut maker = Maker::new(12, true);
    for round in 0..6000 {
        let approach = if round % 5 == 0 { 1 } else { 2 };
        let case = match round % 2 {
            0 => maker.desk_case(approach),
            _ => maker.trim_case(approach),
        };
        let (bundle, acl) = (encode::bundle(&case.bundle), encode::acl(&case.acl));
        let place = locate_verdict(&bundle, &acl);
        let named = match attest(&bundle, &acl) {
            Ok(Verdict::Fail(step)) => (0, step),
            Ok(_) => (0, ""),
            Err(refusal) => (refusal.number(), ""),
        };
        let step = match place.step {
            0 => "",
            number => STEPS[usize::from(number) - 1],
        };
        assert_eq!((place.refusal, step), named);
        assert!(step.is_empty() || approach == 2 || FIRST_STEPS.contains(&step));
    }
}
