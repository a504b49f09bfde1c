//! Reading a bundle: one pass, in which each field, signature and the policy is put where the steps look for it; and the steps before the ACL.

use super::record::*;
use super::{unless, Refusal};

/// The steps in the order of their names in `STEPS`.
#[derive(Clone, Copy)]
pub enum Step {
    WV1,
    MSCV1,
    MSCV2,
    MSCV3,
    MSCV4,
    MSCV5,
    WBCV1,
    WBCV2,
    WBCV3,
    KGCV1,
    KGCV2,
    ACLV3,
    WB1,
    WB2,
    WB3,
    WB6,
    RB1,
    RB2,
    RB3,
    KV3,
    CSRL1,
}

pub fn pass(fine: bool, step: Step) -> Result<(), Step> {
    if fine { Ok(()) } else { Err(step) }
}

/// The greatest length of a bundle, in records.
pub const BUNDLE_RECORDS: usize = 13 + LISTED + 6 + 1;
const LISTED: usize = 32;

// The field that lists a module key, and a policy's place in the order of kind and number.
const MODULE_KEY: usize = 14;
const POLICY_ORDER: u16 = 12 << 8;

/// A bundle without fault.
pub struct Bundle<'a> {
    // Fields 1 to 13, each by its number.
    fields: [Option<&'a Hash>; 14],
    // The records of the listed module keys.
    listed: &'a [Record],
    // Signatures that are present, and good, bit n for signature n.
    present: u8,
    good: u8,
    pub policy: &'a Record,
}

// A record's place in the order, where it is well formed. A policy has no number.
fn order(rec: &Record) -> Option<u16> {
    let place = u16::from_be_bytes([rec[0], rec[4]]);
    match rec[0] {
        10 if (1..=14).contains(&rec[4]) && FACT.clear(rec) => Some(place),
        11 if (1..=6).contains(&rec[4]) && rec[5] <= 1 && SIGNATURE.clear(rec) => Some(place),
        12 if (1..=2).contains(&rec[5]) && rec[6] <= 7 && (1..=4).contains(&rec[7]) && POLICY.clear(rec) => Some(POLICY_ORDER),
        _ => None,
    }
}

/// Reads a bundle, or finds its first fault. The policy is the last of all in the order.
pub fn read(records: &[Record]) -> Result<Bundle<'_>, Refusal> {
    let policy = records.last().ok_or(Refusal::Malformed)?;
    let mut bundle = Bundle { fields: [None; 14], listed: &[], present: 0, good: 0, policy };
    let (mut last, mut first_listed) = (0, 0);
    for (at, rec) in records.iter().enumerate() {
        let place = order(rec).ok_or(Refusal::Malformed)?;
        let number = usize::from(rec[4]);
        if rec[0] == 10 && number == MODULE_KEY {
            unless(last <= place, Refusal::Malformed)?;
            first_listed = if last < place { at } else { first_listed };
            unless(at - first_listed < LISTED, Refusal::TooMany)?;
            bundle.listed = &records[first_listed..=at];
        } else {
            unless(last < place, Refusal::Malformed)?;
            match rec[0] {
                10 => bundle.fields[number] = Some(hash(rec, 8)),
                11 => {
                    bundle.present |= 1 << number;
                    bundle.good |= rec[5] << number;
                }
                _ => {}
            }
        }
        last = place;
    }
    unless(last == POLICY_ORDER, Refusal::Malformed)?;
    Ok(bundle)
}

impl<'a> Bundle<'a> {
    pub fn field(&self, n: usize) -> Option<&'a Hash> {
        self.fields[n]
    }

    fn has(&self, fields: &[usize]) -> bool {
        fields.iter().all(|&n| self.fields[n].is_some())
    }

    // Whether two fields are both present and equal.
    fn equal(&self, m: usize, n: usize) -> bool {
        matches!((self.fields[m], self.fields[n]), (Some(a), Some(b)) if same(a, b))
    }

    fn is_present(&self, n: u32) -> bool {
        self.present >> n & 1 == 1
    }

    fn is_good(&self, n: u32) -> bool {
        self.good >> n & 1 == 1
    }

    fn lists(&self, key: &Hash) -> bool {
        self.listed.iter().any(|rec| same(hash(rec, 8), key))
    }

    // What certificates 3, 4 and 5 vouch with.
    fn vouches(&self, certificate: u32) -> bool {
        let fields: &[usize] = match certificate {
            3 => &[5, 6, 12],
            4 => &[5, 6, 12, 13],
            _ => &[5, 7, 11],
        };
        self.is_good(certificate) && self.has(fields)
    }

    /// The module key and the recovery key, where a world certificate vouches for them: that a key is listed is not enough.
    pub fn trusted_keys(&self) -> (Option<&'a Hash>, Option<&'a Hash>) {
        let module_key = self.fields[6].filter(|_| self.vouches(3) || self.vouches(4));
        (module_key, self.fields[7].filter(|_| self.vouches(5)))
    }

    fn warrant_steps(&self) -> Result<(), Step> {
        pass(self.is_good(1) && self.has(&[1]), Step::WV1)?;
        pass(self.is_good(2), Step::MSCV1)?;
        pass(self.has(&[2, 3]), Step::MSCV2)
    }

    fn world_steps(&self) -> Result<(), Step> {
        pass(self.equal(1, 2), Step::MSCV3)?;
        pass(!self.has(&[5]) || self.equal(5, 4), Step::MSCV4)?;
        pass(self.fields[6].is_none_or(|key| self.lists(key)), Step::MSCV5)?;
        pass(!self.is_present(3) || self.vouches(3), Step::WBCV1)?;
        pass(!self.is_present(4) || self.vouches(4), Step::WBCV2)?;
        pass(!self.is_present(5) || self.vouches(5), Step::WBCV3)
    }

    fn key_steps(&self) -> Result<(), Step> {
        pass(self.is_good(6), Step::KGCV1)?;
        pass(self.equal(8, 9), Step::KGCV2)
    }

    /// The steps before the ACL, by approach 2.
    pub fn steps_before_acl(&self) -> Result<(), Step> {
        self.warrant_steps()?;
        self.world_steps()?;
        self.key_steps()
    }

    /// All the steps of approach 1.
    pub fn generation_steps(&self) -> Result<(), Step> {
        self.warrant_steps()?;
        self.key_steps()?;
        self.csr_step()
    }

    /// The last step of both approaches.
    pub fn csr_step(&self) -> Result<(), Step> {
        pass(self.policy[6] & 4 == 0 || self.equal(10, 9), Step::CSRL1)
    }
}
