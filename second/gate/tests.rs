use super::*;
use crate::acl::TokenParameters;
use crate::encode;
use crate::request::Certificate;

const KM0: Hash = [0x4b; 20];
const SIGN: u8 = 4;
const DECRYPT: u8 = 9;

fn use_at(permission: u8, time: u64) -> Vec<u8> {
    encode::request(
        &Request {
            asked: Asked::Use(permission),
            time,
            blobfile: None,
        },
        &Presented::default(),
    )
}

/// "Bytes 01 and 63 zeros, then 03 00 00 00 00 10 and 58 zeros."
fn sign_group() -> Vec<u8> {
    let mut file = vec![0; 128];
    file[0] = 1;
    file[64] = 3;
    file[69] = 0x10;
    file
}

fn sign_acl(groups: Vec<Group>) -> Vec<u8> {
    let signing = groups.into_iter().map(|group| Group {
        actions: vec![Action::OpPermissions(0x10)],
        ..group
    });
    encode::acl(&Acl {
        groups: signing.collect(),
    })
}

fn limited(sort: Sort, maximum: u32) -> Group {
    Group {
        limits: vec![Limit { sort, maximum }],
        ..Group::default()
    }
}

fn number(reply: Result<(usize, Ledger), Refusal>) -> Result<usize, u8> {
    reply.map(|(place, _)| place).map_err(Refusal::number)
}

#[test]
fn clerk_empty_acl_and_sign_group() {
    let ledger = Ledger::fresh();
    assert_eq!(
        number(request(&ledger, &KM0, &[], &use_at(SIGN, 0))),
        Err(5)
    );
    assert_eq!(sign_group(), sign_acl(vec![Group::default()]));
    let (place, after) = request(&ledger, &KM0, &sign_group(), &use_at(SIGN, 0)).unwrap();
    assert_eq!((place, after.group_counts[0]), (0, 1));
    assert_eq!(
        number(request(&ledger, &KM0, &sign_group(), &use_at(DECRYPT, 0))),
        Err(5)
    );
}

#[test]
fn clerk_maximum_zero() {
    let acl = sign_acl(vec![limited(Sort::UsesPerLoad, 0)]);
    assert_eq!(
        number(request(&Ledger::fresh(), &KM0, &acl, &use_at(SIGN, 0))),
        Err(7)
    );
}

#[test]
fn clerk_certifier() {
    let group = Group {
        certifier: Some([7; 20]),
        mechanism: Some(2),
        ..Group::default()
    };
    let acl = sign_acl(vec![group]);
    let ledger = Ledger::fresh();
    assert_eq!(
        number(request(&ledger, &KM0, &acl, &use_at(SIGN, 0))),
        Err(6)
    );
    let asked = Request {
        asked: Asked::Use(SIGN),
        time: 0,
        blobfile: None,
    };
    let present = |mechanism| {
        encode::request(
            &asked,
            &Presented {
                certificates: vec![Certificate {
                    key: [7; 20],
                    mechanism,
                }],
                ..Presented::default()
            },
        )
    };
    assert_eq!(number(request(&ledger, &KM0, &acl, &present(3))), Err(6));
    assert_eq!(number(request(&ledger, &KM0, &acl, &present(2))), Ok(0));
}

#[test]
fn clerk_seconds_since_load() {
    let acl = sign_acl(vec![limited(Sort::SecondsSinceLoad, 10)]);
    let ledger = Ledger::fresh().loaded(100);
    assert_eq!(
        number(request(&ledger, &KM0, &acl, &use_at(SIGN, 109))),
        Ok(0)
    );
    assert_eq!(
        number(request(&ledger, &KM0, &acl, &use_at(SIGN, 110))),
        Err(7)
    );
    assert_eq!(
        number(request(&ledger, &KM0, &acl, &use_at(SIGN, 99))),
        Err(4)
    );
}

#[test]
fn clerk_day_of_four_signs() {
    let acl = sign_acl(vec![
        limited(Sort::UsesPerLoad, 1),
        limited(Sort::Counter(3), 2),
    ]);
    let mut ledger = Ledger::fresh().loaded(0);
    let mut replies = Vec::new();
    for _ in 0..4 {
        let reply = request(&ledger, &KM0, &acl, &use_at(SIGN, 0));
        if let Ok((_, after)) = &reply {
            ledger = after.clone();
        }
        replies.push(number(reply));
    }
    assert_eq!(replies, [Ok(0), Ok(1), Ok(1), Err(7)]);
    assert_eq!(ledger.counters[3], 2);
    let reply = request(&ledger, &KM0, &acl, &use_at(SIGN, 0));
    assert_eq!(reply, Err(Refusal::Spent { nearest: 0 }));
}

#[test]
fn refusals_carry_the_nearest_group() {
    let certified = |certifier| Group {
        certifier,
        ..limited(Sort::UsesPerLoad, 0)
    };
    let idle = || Group::default();
    let sign = |group| Group {
        actions: vec![Action::OpPermissions(0x10)],
        ..group
    };
    let reply = |groups| {
        let acl = encode::acl(&Acl { groups });
        request(&Ledger::fresh(), &KM0, &acl, &use_at(SIGN, 0))
    };
    let uncertified = || sign(certified(Some([7; 20])));
    assert_eq!(
        reply(vec![idle(), uncertified(), uncertified()]),
        Err(Refusal::NotCertified { nearest: 1 })
    );
    assert_eq!(
        reply(vec![
            uncertified(),
            idle(),
            sign(certified(None)),
            sign(certified(None))
        ]),
        Err(Refusal::Spent { nearest: 2 })
    );
    assert_eq!(reply(vec![idle()]), Err(Refusal::NotAdmitted));
}

#[test]
fn elapsed_seconds_are_not_cut_to_32_bits() {
    let acl = sign_acl(vec![limited(Sort::SecondsSinceLoad, 10)]);
    let ledger = Ledger::fresh();
    assert_eq!(
        number(request(&ledger, &KM0, &acl, &use_at(SIGN, 1 << 32))),
        Err(7)
    );
}

#[test]
fn a_full_count_is_spent_without_any_limit() {
    let mut ledger = Ledger::fresh();
    ledger.group_counts[0] = u32::MAX;
    assert_eq!(
        number(request(&ledger, &KM0, &sign_group(), &use_at(SIGN, 0))),
        Err(7)
    );
    ledger.group_counts[0] -= 1;
    let (_, after) = request(&ledger, &KM0, &sign_group(), &use_at(SIGN, 0)).unwrap();
    assert_eq!(after.group_counts[0], u32::MAX);
}

fn blob_reply(
    blob: MakeBlob,
    km0: Hash,
    module_key: Hash,
    token: Option<Token>,
) -> Result<usize, u8> {
    let group = Group {
        actions: vec![Action::MakeBlob(blob)],
        ..Group::default()
    };
    let acl = encode::acl(&Acl {
        groups: vec![group],
    });
    let asked = Request {
        asked: Asked::Blob { module_key, token },
        time: 0,
        blobfile: None,
    };
    number(request(
        &Ledger::fresh(),
        &km0,
        &acl,
        &encode::request(&asked, &Presented::default()),
    ))
}

#[test]
fn blobs_under_the_null_module_key() {
    let parameters = TokenParameters {
        flags: 0,
        needed: 1,
        total: 1,
        time_limit: 0,
    };
    let token = Some(Token {
        hash: [8; 20],
        parameters,
    });
    let open = MakeBlob {
        allow_km_only: true,
        allow_non_km0: true,
        ..MakeBlob::default()
    };
    let with_null = MakeBlob {
        allow_null_km_token: true,
        ..open.clone()
    };
    assert_eq!(blob_reply(open.clone(), KM0, [9; 20], None), Ok(0));
    assert_eq!(blob_reply(open.clone(), KM0, NULL_MODULE_KEY, None), Err(5));
    assert_eq!(
        blob_reply(with_null.clone(), NULL_MODULE_KEY, NULL_MODULE_KEY, None),
        Err(5)
    );
    assert_eq!(blob_reply(open, KM0, NULL_MODULE_KEY, token), Err(5));
    assert_eq!(blob_reply(with_null, KM0, NULL_MODULE_KEY, token), Ok(0));
    // AllowNullKmToken does not waive the KM0 rule.
    let only_km0 = MakeBlob {
        allow_null_km_token: true,
        ..MakeBlob::default()
    };
    assert_eq!(
        blob_reply(only_km0.clone(), KM0, NULL_MODULE_KEY, token),
        Err(5)
    );
    assert_eq!(
        blob_reply(only_km0, NULL_MODULE_KEY, NULL_MODULE_KEY, token),
        Ok(0)
    );
}

#[test]
fn a_direct_blob_needs_km_only_and_no_token_restriction() {
    let parameters = TokenParameters {
        flags: 0,
        needed: 1,
        total: 1,
        time_limit: 0,
    };
    let km_only = MakeBlob {
        allow_km_only: true,
        ..MakeBlob::default()
    };
    assert_eq!(blob_reply(km_only.clone(), KM0, KM0, None), Ok(0));
    assert_eq!(blob_reply(km_only.clone(), KM0, [9; 20], None), Err(5));
    assert_eq!(blob_reply(MakeBlob::default(), KM0, KM0, None), Err(5));
    let with_hash = MakeBlob {
        kthash: Some([8; 20]),
        ..km_only.clone()
    };
    assert_eq!(blob_reply(with_hash, KM0, KM0, None), Err(5));
    let with_parameters = MakeBlob {
        ktparams: Some(parameters),
        ..km_only
    };
    assert_eq!(blob_reply(with_parameters, KM0, KM0, None), Err(5));
}
