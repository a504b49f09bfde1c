//! Makes what is presented beside a request: certificates, and chains of delegations that certify
//! or nearly do.

use crate::acl::Group;
use crate::maker::{stock, Maker};
use crate::record::Hash;
use crate::request::{
    Asked, Certificate, Delegation, Presented, MOST_CERTIFICATES, MOST_DELEGATIONS,
};

impl Maker {
    /// Whatever is presented without a group in mind.
    pub fn presented_to_nobody(&mut self) -> Presented {
        let mut presented = Presented {
            certificates: self.other_certificates(),
            delegations: Vec::new(),
        };
        self.add_other_delegations(&mut presented);
        presented
    }

    /// What certifies that group for that request, mostly: its certifier's certificate, or a chain
    /// that starts at it.
    pub fn presented_for(&mut self, group: &Group, asked: &Asked) -> Presented {
        let chain_start = group.certifier.filter(|_| self.random.chance(45));
        let mut presented = Presented::default();
        match chain_start {
            Some(certifier) => {
                presented.certificates = self.other_certificates();
                self.present_chain(&mut presented, group, certifier, asked);
            }
            None => presented.certificates = self.certificates_for(group),
        }
        self.add_other_delegations(&mut presented);
        presented
    }

    /// A chain from the certifier to a presented key, mostly of one to four delegations and sound.
    fn present_chain(
        &mut self,
        presented: &mut Presented,
        group: &Group,
        certifier: Hash,
        asked: &Asked,
    ) {
        let length = self
            .random
            .pick_weighted(&[(20, 1), (20, 2), (16, 3), (26, 4), (18, 5)]);
        let mut links = Vec::new();
        let mut from = certifier;
        for place in 0..length {
            let to = stock(b'd', place);
            let mask = self.mask_for(asked);
            links.push(Delegation { from, to, mask });
            from = to;
        }
        let mut certificate = Certificate {
            key: from,
            mechanism: group.mechanism.unwrap_or_else(|| self.mechanism()),
        };
        if self.random.chance(30) {
            self.break_chain(&mut links, &mut certificate, asked);
        }
        self.present(&mut presented.certificates, certificate);
        if self.random.chance(70) {
            self.random.shuffle(&mut links);
        }
        presented.delegations = links;
    }

    /// One thing about a chain off: a mask, a link, its direction, the key or the mechanism at its
    /// end.
    fn break_chain(
        &mut self,
        links: &mut [Delegation],
        certificate: &mut Certificate,
        asked: &Asked,
    ) {
        let link = &mut links[self.random.place(links.len())];
        match self.random.below(6) {
            0 | 1 => link.mask &= !bit_of(asked),
            2 => link.from = self.near(link.from),
            3 => std::mem::swap(&mut link.from, &mut link.to),
            4 => certificate.key = self.near(certificate.key),
            _ => certificate.mechanism = self.other_mechanism(certificate.mechanism),
        }
    }

    /// A mask that holds the bit of a use: alone, among others, or with all of them.
    fn mask_for(&mut self, asked: &Asked) -> u16 {
        let any = self.random.next() as u16;
        bit_of(asked) | self.random.pick(&[0, any, any, 0xffff])
    }

    /// Further delegations between the keys at hand: shortcuts, loops and repeats; now and then as
    /// many as may be, or one more.
    fn add_other_delegations(&mut self, presented: &mut Presented) {
        let some = presented.delegations.len() + self.random.place(4);
        let most = MOST_DELEGATIONS;
        let number = self.random.pick_weighted(&[
            (70, 0),
            (22, some),
            (5, most),
            (2, most + 1),
            (1, most + 2),
        ]);
        let mut keys: Vec<Hash> = presented.certificates.iter().map(|one| one.key).collect();
        keys.extend(
            presented
                .delegations
                .iter()
                .flat_map(|one| [one.from, one.to]),
        );
        keys.extend([self.certifier(), self.certifier(), stock(b'd', 9)]);
        while presented.delegations.len() < number {
            let other = Delegation {
                from: self.random.pick(&keys),
                to: self.random.pick(&keys),
                mask: self.random.next() as u16 | self.random.pick(&[0, 0xffff]),
            };
            let again = presented.delegations.first().copied().unwrap_or(other);
            let added = self.random.pick_weighted(&[(85, other), (15, again)]);
            let place = self.random.place(presented.delegations.len() + 1);
            presented.delegations.insert(place, added);
        }
    }

    /// The certificate that the group asks for, mostly; among others, at any place.
    fn certificates_for(&mut self, group: &Group) -> Vec<Certificate> {
        let mut list = self.other_certificates();
        if let Some(certifier) = group.certifier {
            let mechanism = group.mechanism.unwrap_or_else(|| self.mechanism());
            let right = Certificate {
                key: certifier,
                mechanism,
            };
            match self.random.weighted(&[84, 6, 6, 4]) {
                0 => self.present(&mut list, right),
                1 => {
                    let mechanism = self.other_mechanism(mechanism);
                    self.present(&mut list, Certificate { mechanism, ..right });
                }
                2 => {
                    let key = self.near(certifier);
                    self.present(&mut list, Certificate { key, ..right });
                }
                _ => {}
            }
        }
        list
    }

    /// Puts a certificate among the others, often last; in place of one where they are as many as
    /// may be.
    fn present(&mut self, list: &mut Vec<Certificate>, certificate: Certificate) {
        let any = self.random.place(list.len() + 1);
        let place = self.random.pick(&[any, list.len()]);
        if list.len() < MOST_CERTIFICATES {
            list.insert(place, certificate);
        } else {
            list[place.min(MOST_CERTIFICATES - 1)] = certificate;
        }
    }

    fn other_certificates(&mut self) -> Vec<Certificate> {
        let few = self.random.between(1, 3);
        let many = self.random.between(4, 31);
        let numbers = [
            (665, 0),
            (290, few),
            (15, many),
            (15, 31),
            (9, 32),
            (5, 33),
            (1, 34),
        ];
        (0..self.random.pick_weighted(&numbers))
            .map(|_| Certificate {
                key: self.certifier(),
                mechanism: self.mechanism(),
            })
            .collect()
    }
}

/// The bit of a use, none of a blob request.
fn bit_of(asked: &Asked) -> u16 {
    match asked {
        Asked::Use(permission) => 1 << permission,
        _ => 0,
    }
}
