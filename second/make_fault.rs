//! Makes faults in desk cases, of which each makes exactly one step fail, and cases with many of
//! them.

use crate::acl::{Action, MakeArchiveBlob, MakeBlob};
use crate::bundle::{
    Bundle, CERT_KM_KMC, CERT_KM_KMC_KFIPS, CERT_KRE_KRA, CSR_IN_USE, CSR_KEY, ESN_OF_STATE,
    ESN_OF_WARRANT, HKFIPS, HKM, HKMC, HKNSO, HKRA, HKRE, KCMSG_KEY_HASH, KEY_GENERATION, KML,
    KNSOPUB_HASH, MODULE_STATE, PUBKEYDATA_HASH, WARRANT,
};
use crate::desk::admitted_bits;
use crate::make_desk::{right_mechanism, DeskCase};
use crate::maker::Maker;

/// The steps of approach 1, in the order in which they run.
pub const FIRST_STEPS: [&str; 6] = ["WV1", "MSCV1", "MSCV2", "KGCV1", "KGCV2", "CSRL1"];

impl Maker {
    /// A case in which that step is the only one to fail, under approach 2.
    pub fn failing_case(&mut self, approach: u8, step: &str) -> DeskCase {
        loop {
            let mut case = self.passing_case(approach);
            if self.add_fault(&mut case, step) {
                return case;
            }
        }
    }

    /// Makes a passing case fail that step; false where it gives no room for that.
    pub fn add_fault(&mut self, case: &mut DeskCase, step: &str) -> bool {
        match step {
            "WV1" | "MSCV1" | "MSCV2" | "KGCV1" | "KGCV2" | "CSRL1" => {
                self.fault_in_chain(&mut case.bundle, step)
            }
            "MSCV3" | "MSCV4" | "MSCV5" => self.fault_in_state(&mut case.bundle, step),
            "WBCV1" | "WBCV2" | "WBCV3" => self.fault_in_world(&mut case.bundle, step),
            "KV3" => {
                let protection = u64::from(case.protection());
                if protection == 4 {
                    return false;
                }
                case.bundle.policy.lowest_protection = self.random.between(protection + 1, 4) as u8;
                true
            }
            _ => self.fault_in_acl(case, step),
        }
    }

    fn absent_or_bad(&mut self) -> Option<bool> {
        self.random.pick(&[None, Some(false)])
    }

    fn fault_in_chain(&mut self, bundle: &mut Bundle, step: &str) -> bool {
        match (step, self.random.below(3)) {
            ("WV1", 0) => bundle.facts[ESN_OF_WARRANT] = None,
            ("WV1", _) => bundle.signatures[WARRANT] = self.absent_or_bad(),
            ("MSCV1", _) => bundle.signatures[MODULE_STATE] = self.absent_or_bad(),
            ("MSCV2", 0) => bundle.facts[ESN_OF_STATE] = None,
            ("MSCV2", _) => bundle.facts[KML] = None,
            ("KGCV1", _) => bundle.signatures[KEY_GENERATION] = self.absent_or_bad(),
            ("KGCV2", 0) => {
                bundle.facts[self.random.pick(&[KCMSG_KEY_HASH, PUBKEYDATA_HASH])] = None
            }
            ("KGCV2", 1) => {
                bundle.facts[KCMSG_KEY_HASH] = None;
                bundle.facts[PUBKEYDATA_HASH] = None;
            }
            ("KGCV2", _) => {
                let field = self.random.pick(&[KCMSG_KEY_HASH, PUBKEYDATA_HASH]);
                bundle.facts[field] = bundle.facts[field].map(|hash| self.near(hash));
            }
            // The CSR key.
            (_, 0) => {
                bundle.policy.bits |= CSR_IN_USE;
                bundle.facts[CSR_KEY] = None;
            }
            _ => {
                bundle.policy.bits |= CSR_IN_USE;
                bundle.facts[CSR_KEY] = bundle.facts[PUBKEYDATA_HASH].map(|hash| self.near(hash));
            }
        }
        true
    }

    fn fault_in_state(&mut self, bundle: &mut Bundle, step: &str) -> bool {
        match (step, self.random.below(2)) {
            ("MSCV3", _) => {
                let field = self.random.pick(&[ESN_OF_WARRANT, ESN_OF_STATE]);
                bundle.facts[field] = bundle.facts[field].map(|hash| self.near(hash));
            }
            ("MSCV4", 0) if bundle.facts[KNSOPUB_HASH].is_some() => bundle.facts[HKNSO] = None,
            ("MSCV4", 1) if bundle.facts[KNSOPUB_HASH].is_some() => {
                bundle.facts[KNSOPUB_HASH] = bundle.facts[KNSOPUB_HASH].map(|hash| self.near(hash));
            }
            ("MSCV5", way) => match bundle.facts[HKM] {
                Some(hkm) if way == 0 => bundle.listed.retain(|listed| *listed != hkm),
                Some(hkm) => {
                    let near = self.near(hkm);
                    bundle
                        .listed
                        .iter_mut()
                        .filter(|listed| **listed == hkm)
                        .for_each(|listed| *listed = near);
                }
                None => return false,
            },
            _ => return false,
        }
        true
    }

    fn fault_in_world(&mut self, bundle: &mut Bundle, step: &str) -> bool {
        let km = bundle.signatures[CERT_KM_KMC].is_some();
        let fips = bundle.signatures[CERT_KM_KMC_KFIPS].is_some();
        // An absent field fails the first certificate that speaks of it.
        let (signature, fields) = match step {
            "WBCV1" => (CERT_KM_KMC, vec![KNSOPUB_HASH, HKM, HKMC]),
            "WBCV2" if km => (CERT_KM_KMC_KFIPS, vec![HKFIPS]),
            "WBCV2" => (CERT_KM_KMC_KFIPS, vec![KNSOPUB_HASH, HKM, HKMC, HKFIPS]),
            _ if km || fips => (CERT_KRE_KRA, vec![HKRE, HKRA]),
            _ => (CERT_KRE_KRA, vec![KNSOPUB_HASH, HKRE, HKRA]),
        };
        if bundle.signatures[signature].is_none() {
            return false;
        }
        if self.random.chance(30) {
            bundle.signatures[signature] = Some(false);
        } else {
            bundle.facts[self.random.pick(&fields)] = None;
        }
        true
    }

    fn fault_in_acl(&mut self, case: &mut DeskCase, step: &str) -> bool {
        let action = match step {
            "ACLV3" => self.unadmitted_permissions(case.bundle.policy.bits),
            "WB1" => {
                let blob = MakeBlob {
                    allow_km_only: false,
                    kthash: None,
                    ..self.make_blob()
                };
                Some(Action::MakeBlob(blob))
            }
            "WB2" | "WB3" | "WB6" => self.weak_blob(case, step),
            _ => self.weak_archive(case, step),
        };
        match action {
            Some(action) => self.add_action(case, action),
            None => false,
        }
    }

    fn unadmitted_permissions(&mut self, policy: u8) -> Option<Action> {
        let admitted = admitted_bits(policy);
        let unadmitted: Vec<u16> = (0..16)
            .map(|bit| 1 << bit)
            .filter(|bit| admitted & bit == 0)
            .collect();
        let others = self.random.next() as u16 & admitted;
        Some(Action::OpPermissions(
            others | self.random.pick(&unadmitted),
        ))
    }

    fn weak_blob(&mut self, case: &mut DeskCase, step: &str) -> Option<Action> {
        let hkm = case.hkm()?;
        let mut blob = self.passing_blob(hkm);
        match (step, self.random.below(3)) {
            ("WB2", 0) => {
                case.bundle.signatures[CERT_KM_KMC] = None;
                case.bundle.signatures[CERT_KM_KMC_KFIPS] = None;
            }
            ("WB2", 1) => blob.kmhash = None,
            ("WB2", _) => blob.kmhash = Some(self.near(hkm)),
            ("WB3", _) => blob.allow_null_km_token = true,
            _ => {
                blob.kthash = Some(self.token_hash());
                blob.ktparams = None;
            }
        }
        Some(Action::MakeBlob(blob))
    }

    fn weak_archive(&mut self, case: &mut DeskCase, step: &str) -> Option<Action> {
        let hkre = case.hkre()?;
        let mut kahash = Some(hkre);
        let mut mechanism = right_mechanism(case);
        match (step, self.random.below(2)) {
            ("RB1", _) => case.bundle.signatures[CERT_KRE_KRA] = None,
            ("RB2", 0) => kahash = None,
            ("RB2", _) => kahash = Some(self.near(hkre)),
            _ => {
                let wrong: Vec<u16> = [1, 2, 3, 4, 5, 256]
                    .into_iter()
                    .filter(|number| *number != mechanism)
                    .collect();
                mechanism = self.random.pick(&wrong);
            }
        }
        Some(Action::MakeArchiveBlob(MakeArchiveBlob {
            kahash,
            mechanism,
            blobfile: self.maybe_blobfile(),
        }))
    }
}

#[cfg(test)]
mod tests {
    use super::*;
    use crate::desk::{attest, Verdict, STEPS};
    use crate::encode;

    fn verdict(case: &DeskCase) -> Verdict {
        attest(&encode::bundle(&case.bundle), &encode::acl(&case.acl)).unwrap()
    }

    #[test]
    fn each_fault_fails_its_own_step() {
        let mut maker = Maker::new(7, true);
        for step in STEPS {
            for _ in 0..100 {
                let case = maker.failing_case(2, step);
                assert_eq!(verdict(&case), Verdict::Fail(step), "{case:?}");
            }
        }
    }
}
