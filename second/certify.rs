//! When a group is certified by what is presented.

use crate::acl::Group;
use crate::record::Hash;
use crate::request::{Asked, Certificate, Delegation, Presented};

/// "A chain of at most four delegations".
const LONGEST_CHAIN: usize = 4;

/// "It is certified if it has no certifier, or a presented certificate has that hash and, where
/// named, that mechanism." "A use request is certified for a group if a presented certificate
/// satisfies it, or a chain of at most four delegations leads from the group's certifier to a
/// presented key, each mask holding the requested bit. [...] With either blob request they are read
/// but certify nothing."
pub fn is_certified(group: &Group, asked: &Asked, presented: &Presented) -> bool {
    let Some(certifier) = group.certifier else {
        return true;
    };
    let keys = keys_presented(group, &presented.certificates);
    match asked {
        Asked::Use(permission) => {
            let holds_the_bit = |delegation: &&Delegation| delegation.mask >> permission & 1 == 1;
            let links: Vec<&Delegation> =
                presented.delegations.iter().filter(holds_the_bit).collect();
            is_reached(&certifier, &keys, &links, LONGEST_CHAIN)
        }
        _ => keys.contains(&certifier),
    }
}

/// The keys of the certificates that have the group's mechanism, where it names one: "a group's
/// named mechanism then applies to the presented certificate."
fn keys_presented(group: &Group, certificates: &[Certificate]) -> Vec<Hash> {
    certificates
        .iter()
        .filter(|certificate| {
            group
                .mechanism
                .is_none_or(|named| named == certificate.mechanism)
        })
        .map(|certificate| certificate.key)
        .collect()
}

/// Whether one of the keys is this one, or is reached from it over at most so many links. No chain
/// needs one link twice, so a link that has been taken is left out of the rest.
fn is_reached(from: &Hash, keys: &[Hash], links: &[&Delegation], most: usize) -> bool {
    if keys.contains(from) {
        return true;
    }
    if most == 0 {
        return false;
    }
    links.iter().enumerate().any(|(place, link)| {
        let rest = || [&links[..place], &links[place + 1..]].concat();
        link.from == *from && is_reached(&link.to, keys, &rest(), most - 1)
    })
}

#[cfg(test)]
mod tests {
    use super::*;

    const SIGN: u16 = 1 << 4;

    fn key(number: u8) -> Hash {
        [number; 20]
    }

    fn link(from: u8, to: u8, mask: u16) -> Delegation {
        Delegation {
            from: key(from),
            to: key(to),
            mask,
        }
    }

    /// Whether a Sign is certified for a group of key 0 where this key's certificate is presented.
    fn certified(presented_key: u8, delegations: &[Delegation]) -> bool {
        asked_certified(&Asked::Use(4), presented_key, delegations)
    }

    fn asked_certified(asked: &Asked, presented_key: u8, delegations: &[Delegation]) -> bool {
        let group = Group {
            certifier: Some(key(0)),
            mechanism: Some(7),
            ..Group::default()
        };
        let certificate = |mechanism| Certificate {
            key: key(presented_key),
            mechanism,
        };
        let presented = |mechanism| Presented {
            certificates: vec![certificate(mechanism)],
            delegations: delegations.to_vec(),
        };
        assert!(!is_certified(&group, asked, &presented(8)));
        is_certified(&group, asked, &presented(7))
    }

    #[test]
    fn four_links_certify_and_five_do_not() {
        let links: Vec<Delegation> = (0..5)
            .rev()
            .map(|from| link(from, from + 1, SIGN))
            .collect();
        for end in 0..=4 {
            assert!(certified(end, &links), "{end}");
        }
        assert!(!certified(5, &links));
    }

    #[test]
    fn every_mask_holds_the_bit() {
        assert!(certified(2, &[link(0, 1, SIGN), link(1, 2, 0xffff)]));
        assert!(!certified(2, &[link(0, 1, SIGN), link(1, 2, !SIGN)]));
        assert!(!certified(2, &[link(0, 1, 0), link(1, 2, SIGN)]));
    }

    #[test]
    fn a_chain_starts_at_the_certifier_and_leads_forward() {
        assert!(!certified(1, &[link(1, 0, SIGN)]));
        assert!(!certified(2, &[link(1, 2, SIGN)]));
    }

    #[test]
    fn loops_and_repeats_do_no_harm() {
        let tangle = [
            link(0, 0, SIGN),
            link(0, 1, SIGN),
            link(0, 1, SIGN),
            link(1, 0, SIGN),
            link(1, 2, SIGN),
        ];
        assert!(certified(2, &tangle));
        assert!(!certified(3, &tangle));
        assert!(!certified(9, &[link(0, 0, SIGN); 16]));
    }

    #[test]
    fn for_blobs_delegations_certify_nothing() {
        let recovery = Asked::Recovery {
            key: key(9),
            mechanism: 1,
        };
        let links = [link(0, 1, 0xffff)];
        assert!(!asked_certified(&recovery, 1, &links));
        assert!(asked_certified(&recovery, 0, &links));
    }
}
