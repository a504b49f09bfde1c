use super::*;
use crate::acl::TokenParameters;
use crate::blobfile::BlobFile;
use crate::bundle::Policy;
use crate::encode;
use crate::record::Hash;

const OFFICER: Hash = [4; 20];
const MODULE_KEY: Hash = [6; 20];

/// A bundle that passes every step under approach 2.
fn good_bundle() -> Bundle {
    let mut facts = [None; 14];
    for (field, fact) in facts.iter_mut().enumerate().skip(1) {
        *fact = Some([field as u8; 20]);
    }
    facts[ESN_OF_STATE] = facts[ESN_OF_WARRANT];
    facts[KNSOPUB_HASH] = Some(OFFICER);
    facts[PUBKEYDATA_HASH] = facts[KCMSG_KEY_HASH];
    facts[CSR_KEY] = facts[KCMSG_KEY_HASH];
    let mut signatures = [Some(true); 7];
    signatures[0] = None;
    let policy = Policy {
        suite: 3,
        approach: 2,
        bits: 7,
        lowest_protection: 1,
    };
    Bundle {
        facts,
        listed: vec![[9; 20], MODULE_KEY],
        signatures,
        policy,
    }
}

fn one_group(actions: Vec<Action>) -> Acl {
    Acl {
        groups: vec![Group {
            actions,
            ..Group::default()
        }],
    }
}

fn verdict(bundle: &Bundle, acl: &Acl) -> Verdict {
    attest(&encode::bundle(bundle), &encode::acl(acl)).unwrap()
}

fn accepted(protection: u8, recoverable: bool) -> Verdict {
    Verdict::AcceptSecond {
        protection,
        recoverable,
    }
}

fn cardset() -> MakeBlob {
    let parameters = TokenParameters {
        flags: 0,
        needed: 1,
        total: 2,
        time_limit: 0,
    };
    MakeBlob {
        kmhash: Some(MODULE_KEY),
        kthash: Some([8; 20]),
        ktparams: Some(parameters),
        ..MakeBlob::default()
    }
}

fn blobs(list: &[MakeBlob]) -> Acl {
    one_group(list.iter().cloned().map(Action::MakeBlob).collect())
}

#[test]
fn clerk_protection() {
    let km_only = MakeBlob {
        allow_km_only: true,
        kmhash: Some(MODULE_KEY),
        ..MakeBlob::default()
    };
    let km_only_with_token = MakeBlob {
        allow_km_only: true,
        ..cardset()
    };
    let bundle = good_bundle();
    assert_eq!(
        verdict(&bundle, &blobs(&[cardset(), km_only])),
        accepted(1, false)
    );
    assert_eq!(
        verdict(&bundle, &blobs(&[km_only_with_token])),
        accepted(1, false)
    );
    assert_eq!(
        verdict(&bundle, &one_group(vec![Action::OpPermissions(0x10)])),
        accepted(4, false)
    );
    assert_eq!(verdict(&bundle, &blobs(&[cardset()])), accepted(3, false));
}

#[test]
fn protection_grading_does_not_look_at_blobfile() {
    let stored = MakeBlob {
        blobfile: Some(BlobFile::default()),
        ..cardset()
    };
    let acl = blobs(&[stored]);
    assert_eq!(verdict(&good_bundle(), &acl), accepted(3, false));
}

#[test]
fn clerk_weak_blobs() {
    let without_parameters = MakeBlob {
        ktparams: None,
        ..cardset()
    };
    let null_only = MakeBlob {
        allow_null_km_token: true,
        ..MakeBlob::default()
    };
    let bundle = good_bundle();
    assert_eq!(
        verdict(&bundle, &blobs(&[without_parameters])),
        Verdict::Fail("WB6")
    );
    assert_eq!(verdict(&bundle, &blobs(&[null_only])), Verdict::Fail("WB1"));
}

#[test]
fn clerk_officers_group() {
    let export_as_plain = vec![Action::OpPermissions(1 << 10)];
    let mut acl = one_group(export_as_plain);
    acl.groups[0].certifier = Some(OFFICER);
    assert_eq!(verdict(&good_bundle(), &acl), accepted(4, true));
    acl.groups[0].certifier = None;
    assert_eq!(verdict(&good_bundle(), &acl), Verdict::Fail("ACLV3"));
}

#[test]
fn hkm_is_not_trusted_because_it_is_listed() {
    let mut bundle = good_bundle();
    bundle.signatures[CERT_KM_KMC] = None;
    assert_eq!(verdict(&bundle, &blobs(&[cardset()])), accepted(3, false));
    bundle.signatures[CERT_KM_KMC_KFIPS] = None;
    assert_eq!(verdict(&bundle, &blobs(&[cardset()])), Verdict::Fail("WB2"));
}

#[test]
fn first_approach_reads_the_acl_and_checks_none_of_it() {
    let mut bundle = good_bundle();
    bundle.policy.approach = 1;
    bundle.facts[ESN_OF_STATE] = Some([77; 20]);
    let weak = blobs(&[MakeBlob::default()]);
    assert_eq!(verdict(&bundle, &weak), Verdict::AcceptFirst);
    assert_eq!(
        attest(&encode::bundle(&bundle), &[0; 64]),
        Err(Refusal::Malformed)
    );
    assert_eq!(
        attest(&encode::bundle(&bundle), &[0; 63]),
        Err(Refusal::Length)
    );
}

#[test]
fn an_unknown_suite_comes_after_every_record() {
    let mut bundle = good_bundle();
    bundle.policy.suite = 6;
    let file = encode::bundle(&bundle);
    assert_eq!(attest(&file, &[]), Err(Refusal::NoSuchSuite));
    assert_eq!(attest(&file, &[0; 64]), Err(Refusal::Malformed));
}

#[test]
fn the_elliptic_curve_suite_calls_for_mechanism_4() {
    let mut bundle = good_bundle();
    bundle.policy.suite = 5;
    let archive = |mechanism| {
        one_group(vec![Action::MakeArchiveBlob(MakeArchiveBlob {
            kahash: Some([HKRE as u8; 20]),
            mechanism,
            blobfile: None,
        })])
    };
    assert_eq!(verdict(&bundle, &archive(4)), accepted(4, true));
    assert_eq!(verdict(&bundle, &archive(3)), Verdict::Fail("RB3"));
    bundle.policy.suite = 4;
    assert_eq!(verdict(&bundle, &archive(4)), Verdict::Fail("RB3"));
}

#[test]
fn the_33rd_listed_key_is_too_many() {
    let mut bundle = good_bundle();
    bundle.listed = vec![MODULE_KEY; 32];
    assert_eq!(encode::bundle(&bundle).len(), 52 * 64);
    assert_eq!(verdict(&bundle, &Acl::default()), accepted(4, false));
    bundle.listed.push(MODULE_KEY);
    assert_eq!(attest(&encode::bundle(&bundle), &[]), Err(Refusal::Length));
    bundle.facts[HKFIPS] = None;
    assert_eq!(attest(&encode::bundle(&bundle), &[]), Err(Refusal::TooMany));
}
