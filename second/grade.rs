//! Request n, "the grade is not too cautious either": blob requests of a given protection on an
//! accepted ACL, found by search.

use crate::acl::{Acl, Action, MakeBlob, TokenParameters, ALLOW_SOFT_SLOTS};
use crate::encode;
use crate::gate::{self, NULL_MODULE_KEY};
use crate::ledger::Ledger;
use crate::record::Hash;
use crate::request::{Asked, Certificate, Presented, Request, Token, MOST_CERTIFICATES};

/// The module keys that the claim speaks of.
#[derive(Clone, Copy, Debug)]
pub struct Keys {
    pub hkm: Hash,
    pub km0: Hash,
}

/// "An ACL without limits, [...] in which no action has AllowKmOnly together with kthash or ktparams
/// and none has blobfile. Let hkm be other than the null key, and let every MakeBlob action have
/// AllowNonKm0 or hkm be KM0. [...] at most 32 such certificates".
pub fn premise_holds(acl: &Acl, keys: Keys) -> bool {
    let without_limits = acl.groups.iter().all(|group| group.limits.is_empty());
    let mut actions = acl.groups.iter().flat_map(|group| &group.actions);
    let actions_good = actions.all(|action| match action {
        Action::MakeBlob(blob) => {
            let about_token = blob.kthash.is_some() || blob.ktparams.is_some();
            !(blob.allow_km_only && about_token) && (blob.allow_non_km0 || keys.hkm == keys.km0)
        }
        _ => true,
    });
    let returned = |action: &Action| action.blobfile().is_none();
    let mut stored = acl.groups.iter().flat_map(|group| &group.actions);
    without_limits
        && actions_good
        && stored.all(returned)
        && keys.hkm != NULL_MODULE_KEY
        && all_certificates(acl).len() <= MOST_CERTIFICATES
}

/// "All certifiers presented at the mechanisms named".
pub fn all_certificates(acl: &Acl) -> Vec<Certificate> {
    let mut list: Vec<Certificate> = Vec::new();
    for group in &acl.groups {
        let certificate = group.certifier.map(|key| Certificate {
            key,
            mechanism: group.mechanism.unwrap_or(1),
        });
        list.extend(certificate.filter(|one| !list.contains(one)));
    }
    list
}

/// "A request's blob: 0 if its module key is not hkm, else 1 direct, 2 soft token, 3 other token."
fn protection_of_request(asked: &Asked, hkm: &Hash) -> Option<u8> {
    let Asked::Blob { module_key, token } = asked else {
        return None;
    };
    Some(match token {
        _ if module_key != hkm => 0,
        None => 1,
        Some(token) if token.parameters.flags & ALLOW_SOFT_SLOTS != 0 => 2,
        Some(_) => 3,
    })
}

/// "Just after a load [...] some blob request of exactly that protection is permitted": one such
/// request, of those that some action of the ACL suggests.
pub fn permitted_request(
    acl: &Acl,
    keys: Keys,
    loaded: &Ledger,
    protection: u8,
) -> Option<Request> {
    let file = encode::acl(acl);
    let presented = Presented {
        certificates: all_certificates(acl),
        ..Presented::default()
    };
    let suggested = acl
        .groups
        .iter()
        .flat_map(|group| &group.actions)
        .filter_map(|action| match action {
            Action::MakeBlob(blob) => Some(requests_for(blob, keys.hkm, loaded.load_time)),
            _ => None,
        })
        .flatten();
    let is_exact =
        |request: &Request| protection_of_request(&request.asked, &keys.hkm) == Some(protection);
    let is_permitted = |request: &Request| {
        let asked = encode::request(request, &presented);
        gate::request(loaded, &keys.km0, &file, &asked).is_ok()
    };
    suggested.filter(is_exact).find(is_permitted)
}

/// Requests under hkm: direct, and with a token as the action names it, where it names one.
fn requests_for(blob: &MakeBlob, hkm: Hash, time: u64) -> Vec<Request> {
    let any = TokenParameters {
        flags: 0,
        needed: 1,
        total: 1,
        time_limit: 0,
    };
    let token = Token {
        hash: blob.kthash.unwrap_or([0; 20]),
        parameters: blob.ktparams.unwrap_or(any),
    };
    [None, Some(token)]
        .into_iter()
        .map(|token| Request {
            asked: Asked::Blob {
                module_key: hkm,
                token,
            },
            time,
            blobfile: None,
        })
        .collect()
}

#[cfg(test)]
mod tests {
    use super::*;
    use crate::acl::{Group, Limit, Sort};
    use crate::blobfile::BlobFile;

    const KEYS: Keys = Keys {
        hkm: [6; 20],
        km0: [6; 20],
    };

    fn one_blob(blob: MakeBlob) -> Acl {
        Acl {
            groups: vec![Group {
                certifier: Some([7; 20]),
                mechanism: Some(3),
                actions: vec![Action::MakeBlob(blob)],
                ..Group::default()
            }],
        }
    }

    fn found(acl: &Acl, keys: Keys, protection: u8) -> bool {
        let loaded = Ledger::fresh().loaded(9);
        permitted_request(acl, keys, &loaded, protection).is_some()
    }

    fn km_only() -> MakeBlob {
        MakeBlob {
            allow_km_only: true,
            kmhash: Some(KEYS.hkm),
            ..MakeBlob::default()
        }
    }

    fn with_token(flags: u16) -> MakeBlob {
        let parameters = TokenParameters {
            flags,
            needed: 2,
            total: 3,
            time_limit: 60,
        };
        MakeBlob {
            kmhash: Some(KEYS.hkm),
            kthash: Some([8; 20]),
            ktparams: Some(parameters),
            ..MakeBlob::default()
        }
    }

    #[test]
    fn each_protection_has_its_request() {
        for (blob, protection) in [(km_only(), 1), (with_token(1), 2), (with_token(0), 3)] {
            let acl = one_blob(blob);
            assert!(premise_holds(&acl, KEYS));
            assert!(found(&acl, KEYS, protection), "{protection}");
        }
        assert!(!found(&one_blob(with_token(0)), KEYS, 1));
        assert!(!found(&one_blob(with_token(0)), KEYS, 2));
    }

    /// Each part of the premise is needed: without it no such request is permitted.
    #[test]
    fn without_the_premise_there_may_be_none() {
        let other_km0 = Keys {
            km0: [1; 20],
            ..KEYS
        };
        let null = Keys {
            hkm: NULL_MODULE_KEY,
            km0: NULL_MODULE_KEY,
        };
        let null_only = MakeBlob {
            kmhash: Some(NULL_MODULE_KEY),
            ..km_only()
        };
        let both = MakeBlob {
            allow_km_only: true,
            ..with_token(0)
        };
        let stored = MakeBlob {
            blobfile: Some(BlobFile::default()),
            ..km_only()
        };
        let mut limited = one_blob(km_only());
        limited.groups[0].limits.push(Limit {
            sort: Sort::UsesPerLoad,
            maximum: 0,
        });
        for (acl, keys) in [
            (one_blob(km_only()), other_km0),
            (one_blob(null_only), null),
            (one_blob(both), KEYS),
            (one_blob(stored), KEYS),
            (limited, KEYS),
        ] {
            assert!(!premise_holds(&acl, keys));
            assert!(!found(&acl, keys, 1), "{acl:?}");
        }
    }
}
