//! Makes bundles and ACLs that the desk accepts.

use crate::acl::{Acl, Action, Group, MakeArchiveBlob, MakeBlob, MOST_ACTIONS, MOST_GROUPS};
use crate::bundle::{
    Bundle, Policy, CERT_KM_KMC, CERT_KM_KMC_KFIPS, CERT_KRE_KRA, CSR_IN_USE, CSR_KEY,
    ESN_OF_STATE, ESN_OF_WARRANT, HKFIPS, HKM, HKMC, HKNSO, HKRA, HKRE, KCMSG_KEY_HASH,
    KEY_GENERATION, KML, KNSOPUB_HASH, MODULE_STATE, MOST_LISTED, PUBKEYDATA_HASH, WARRANT,
};
use crate::desk::{admitted_bits, is_officers, protection_of};
use crate::maker::{stock, Maker, ZERO_HASH};
use crate::record::Hash;
use crate::subject::{recovery_mechanism, LAST_SUITE};

/// A bundle and the key's ACL.
#[derive(Clone, Debug)]
pub struct DeskCase {
    pub bundle: Bundle,
    pub acl: Acl,
}

impl DeskCase {
    pub fn officer(&self) -> Option<Hash> {
        self.bundle.facts[HKNSO]
    }

    pub fn is_officers(&self, group: &Group) -> bool {
        is_officers(&self.bundle, group)
    }

    pub fn hkm(&self) -> Option<Hash> {
        self.bundle.trusted_hkm()
    }

    pub fn hkre(&self) -> Option<Hash> {
        self.bundle.trusted_hkre()
    }

    /// The protection that the groups which are not the officer's give the key.
    pub fn protection(&self) -> u8 {
        let groups = self
            .acl
            .groups
            .iter()
            .filter(|group| !self.is_officers(group));
        let blobs = groups
            .flat_map(|group| &group.actions)
            .filter_map(|action| match action {
                Action::MakeBlob(blob) => Some(protection_of(blob)),
                _ => None,
            });
        blobs.min().unwrap_or(4)
    }
}

impl Maker {
    /// A bundle and an ACL that pass every step.
    pub fn passing_case(&mut self, approach: u8) -> DeskCase {
        let bundle = self.passing_bundle(approach);
        let mut case = DeskCase {
            bundle,
            acl: Acl::default(),
        };
        let groups = self.random.pick_weighted(&[
            (6, 0),
            (30, 1),
            (34, 2),
            (20, 3),
            (9, 5),
            (1, MOST_GROUPS),
        ]);
        for place in 0..groups {
            let group = self.desk_group(&case, place);
            case.acl.groups.push(group);
        }
        let protection = u64::from(case.protection());
        let at_most = if self.random.chance(50) {
            protection
        } else {
            self.random.between(1, protection)
        };
        case.bundle.policy.lowest_protection = at_most as u8;
        case
    }

    fn passing_bundle(&mut self, approach: u8) -> Bundle {
        let bits = self.random.below(8) as u8;
        let policy = Policy {
            suite: self.random.between(1, LAST_SUITE) as u8,
            approach,
            bits,
            lowest_protection: 1,
        };
        let mut bundle = Bundle {
            facts: [None; 14],
            listed: Vec::new(),
            signatures: [None; 7],
            policy,
        };
        for signature in [WARRANT, MODULE_STATE, KEY_GENERATION] {
            bundle.signatures[signature] = Some(true);
        }
        let esn = self.fact(ESN_OF_WARRANT);
        bundle.facts[ESN_OF_WARRANT] = Some(esn);
        bundle.facts[ESN_OF_STATE] = Some(esn);
        bundle.facts[KML] = Some(self.fact(KML));
        self.add_world(&mut bundle);
        self.add_listed_keys(&mut bundle);
        let key = self.fact(KCMSG_KEY_HASH);
        bundle.facts[KCMSG_KEY_HASH] = Some(key);
        bundle.facts[PUBKEYDATA_HASH] = Some(key);
        bundle.facts[CSR_KEY] = match (bits & CSR_IN_USE != 0, self.random.below(3)) {
            (true, _) | (false, 0) => Some(key),
            (false, 1) => Some(self.near(key)),
            (false, _) => None,
        };
        bundle
    }

    /// What a field holds; now and then zeros, since presence is never by content.
    fn fact(&mut self, field: usize) -> Hash {
        if self.random.chance(6) {
            ZERO_HASH
        } else {
            stock(b'f', field as u8)
        }
    }

    /// The officer's key, the world certificates and the hashes they speak of.
    fn add_world(&mut self, bundle: &mut Bundle) {
        if self.random.chance(90) {
            let officer = self.fact(HKNSO);
            bundle.facts[HKNSO] = Some(officer);
            bundle.facts[KNSOPUB_HASH] = self.random.chance(92).then_some(officer);
        }
        let certified = bundle.facts[KNSOPUB_HASH].is_some();
        for (signature, percent) in [
            (CERT_KM_KMC, 65),
            (CERT_KM_KMC_KFIPS, 40),
            (CERT_KRE_KRA, 72),
        ] {
            bundle.signatures[signature] =
                (certified && self.random.chance(percent)).then_some(true);
        }
        let km = bundle.signatures[CERT_KM_KMC].is_some();
        let fips = bundle.signatures[CERT_KM_KMC_KFIPS].is_some();
        let kre = bundle.signatures[CERT_KRE_KRA].is_some();
        let needs = [
            (HKM, km || fips),
            (HKMC, km || fips),
            (HKFIPS, fips),
            (HKRE, kre),
            (HKRA, kre),
        ];
        for (field, needed) in needs {
            if needed || self.random.chance(50) {
                bundle.facts[field] = Some(self.fact(field));
            }
        }
    }

    /// Listed module keys, hkm at any place among them.
    fn add_listed_keys(&mut self, bundle: &mut Bundle) {
        let few = self.random.below(4);
        let others = self
            .random
            .pick_weighted(&[(90, few), (10, MOST_LISTED as u64 - 1)]);
        bundle.listed = (0..others).map(|_| self.module_key()).collect();
        if let Some(hkm) = bundle.facts[HKM] {
            let place = self.random.place(bundle.listed.len() + 1);
            bundle.listed.insert(place, hkm);
            if bundle.listed.len() < MOST_LISTED && self.random.chance(10) {
                bundle.listed.push(hkm);
            }
        }
    }

    fn desk_group(&mut self, case: &DeskCase, place: usize) -> Group {
        let mut group = Group::default();
        for _ in 0..self.random.below(3) {
            self.add_limit(&mut group, place);
        }
        if let Some(officer) = case.officer().filter(|_| self.random.chance(22)) {
            group.certifier = Some(officer);
            group.mechanism = self.random.chance(40).then(|| self.mechanism());
            // Whatever an officer's group allows is not looked at.
            group.actions = (0..self.random.below(4)).map(|_| self.action()).collect();
            return group;
        }
        if self.random.chance(25) {
            group.certifier = Some(self.not_the_officer(case));
        }
        let few = self.random.below(4);
        let actions = self.random.pick_weighted(&[(93, few), (3, 7), (4, 8)]);
        group.actions = (0..actions).map(|_| self.passing_action(case)).collect();
        group
    }

    /// A certifier that is not the officer's key, often nearly so; zeros where there is no officer.
    fn not_the_officer(&mut self, case: &DeskCase) -> Hash {
        match case.officer() {
            Some(officer) => self.near(officer),
            None => self.random.pick(&[ZERO_HASH, stock(b'f', HKNSO as u8)]),
        }
    }

    fn passing_action(&mut self, case: &DeskCase) -> Action {
        let blob = case.hkm().filter(|_| self.random.chance(55));
        if let Some(hkm) = blob {
            return Action::MakeBlob(self.passing_blob(hkm));
        }
        let archive = case.hkre().filter(|_| self.random.chance(40));
        if let Some(hkre) = archive {
            return Action::MakeArchiveBlob(MakeArchiveBlob {
                kahash: Some(hkre),
                mechanism: right_mechanism(case),
                blobfile: self.maybe_blobfile(),
            });
        }
        Action::OpPermissions(self.random.next() as u16 & admitted_bits(case.bundle.policy.bits))
    }

    pub fn passing_blob(&mut self, hkm: Hash) -> MakeBlob {
        let allow_km_only = self.random.chance(20);
        let with_token = !allow_km_only || self.random.chance(40);
        let with_parameters = with_token || self.random.chance(30);
        MakeBlob {
            allow_km_only,
            allow_non_km0: self.random.chance(50),
            allow_null_km_token: false,
            kmhash: Some(hkm),
            kthash: with_token.then(|| self.token_hash()),
            ktparams: with_parameters.then(|| self.token_parameters()),
            blobfile: self.maybe_blobfile(),
        }
    }

    /// Adds an action that may fail several steps at once.
    pub fn add_any_action(&mut self, case: &mut DeskCase) {
        let action = if self.random.chance(60) {
            let kmhash = if self.random.chance(70) {
                case.hkm()
            } else {
                Some(self.module_key())
            };
            Action::MakeBlob(MakeBlob {
                kmhash,
                ..self.make_blob()
            })
        } else {
            let kahash = if self.random.chance(60) {
                case.hkre()
            } else {
                Some(self.recovery_key())
            };
            Action::MakeArchiveBlob(MakeArchiveBlob {
                kahash,
                mechanism: self.random.between(1, 4) as u16,
                blobfile: self.maybe_blobfile(),
            })
        };
        self.add_action(case, action);
    }

    /// Puts an action at any place of a group that is not the officer's, or into a group of its own
    /// at the end.
    pub fn add_action(&mut self, case: &mut DeskCase, action: Action) -> bool {
        let lacks_kahash = action.lacks_kahash();
        let fits = |place: &usize| {
            let group = &case.acl.groups[*place];
            let may_take = !(group.is_open() && lacks_kahash);
            !case.is_officers(group) && may_take && group.actions.len() < MOST_ACTIONS
        };
        let places: Vec<usize> = (0..case.acl.groups.len()).filter(fits).collect();
        if !places.is_empty() && self.random.chance(70) {
            let actions = &mut case.acl.groups[self.random.pick(&places)].actions;
            let any = self.random.place(actions.len() + 1);
            let place = self.random.pick(&[any, actions.len()]);
            actions.insert(place, action);
        } else if case.acl.groups.len() < MOST_GROUPS {
            let certifier = lacks_kahash.then(|| self.not_the_officer(case));
            case.acl.groups.push(Group {
                certifier,
                actions: vec![action],
                ..Group::default()
            });
        } else {
            return false;
        }
        true
    }
}

pub fn right_mechanism(case: &DeskCase) -> u16 {
    recovery_mechanism(u64::from(case.bundle.policy.suite)).unwrap_or(1)
}

#[cfg(test)]
mod tests {
    use super::*;
    use crate::desk::{attest, Verdict};
    use crate::encode;

    fn verdict(case: &DeskCase) -> Verdict {
        attest(&encode::bundle(&case.bundle), &encode::acl(&case.acl)).unwrap()
    }

    #[test]
    fn passing_cases_pass() {
        let mut maker = Maker::new(6, true);
        for _ in 0..1000 {
            let case = maker.passing_case(2);
            assert!(
                matches!(verdict(&case), Verdict::AcceptSecond { .. }),
                "{case:?} {:?}",
                verdict(&case)
            );
            let case = maker.passing_case(1);
            assert_eq!(verdict(&case), Verdict::AcceptFirst);
        }
    }
}
