//! Bundles: the facts and signature outcomes that are reported to the desk, and the policy.

use crate::record::{malformed_unless, push_up_to, records, Hash, Record, Refusal};

/// "Greatest lengths: [...] bundle 52."
pub const MOST_BUNDLE_RECORDS: usize = 52;
pub const MOST_LISTED: usize = 32;
pub const LISTED_FIELD: u8 = 14;
const LAST_SIGNATURE: u8 = 6;

/// The fields of document 01, by number.
pub const ESN_OF_WARRANT: usize = 1;
pub const ESN_OF_STATE: usize = 2;
pub const KML: usize = 3;
pub const HKNSO: usize = 4;
pub const KNSOPUB_HASH: usize = 5;
pub const HKM: usize = 6;
pub const HKRE: usize = 7;
pub const KCMSG_KEY_HASH: usize = 8;
pub const PUBKEYDATA_HASH: usize = 9;
pub const CSR_KEY: usize = 10;
pub const HKRA: usize = 11;
pub const HKMC: usize = 12;
pub const HKFIPS: usize = 13;

/// The signatures of document 01, by number.
pub const WARRANT: usize = 1;
pub const MODULE_STATE: usize = 2;
pub const CERT_KM_KMC: usize = 3;
pub const CERT_KM_KMC_KFIPS: usize = 4;
pub const CERT_KRE_KRA: usize = 5;
pub const KEY_GENERATION: usize = 6;

/// What a bundle reports. Presence is by record, never by content.
#[derive(Clone, Debug, PartialEq)]
pub struct Bundle {
    /// Fields 1 to 13, each at its own number.
    pub facts: [Option<Hash>; 14],
    /// Field 14, as often as it stands there.
    pub listed: Vec<Hash>,
    /// Signatures 1 to 6, each at its own number: good or bad, or not present.
    pub signatures: [Option<bool>; 7],
    pub policy: Policy,
}

#[derive(Clone, Copy, Debug, PartialEq)]
pub struct Policy {
    pub suite: u8,
    pub approach: u8,
    /// Bits 0 signing admitted, 1 encryption admitted, 2 CSR in use.
    pub bits: u8,
    pub lowest_protection: u8,
}

pub const SIGNING_ADMITTED: u8 = 1;
pub const ENCRYPTION_ADMITTED: u8 = 2;
pub const CSR_IN_USE: u8 = 4;

impl Bundle {
    pub fn present(&self, field: usize) -> bool {
        self.facts[field].is_some()
    }

    pub fn all_present(&self, fields: &[usize]) -> bool {
        fields.iter().all(|&field| self.present(field))
    }

    /// Both present and equal: absent never equals absent.
    pub fn equal(&self, one: usize, other: usize) -> bool {
        self.all_present(&[one, other]) && self.facts[one] == self.facts[other]
    }

    pub fn good(&self, signature: usize) -> bool {
        self.signatures[signature] == Some(true)
    }

    /// A world certificate, "if present: good", and the fields it speaks of present.
    pub fn world_certificate_holds(&self, signature: usize, fields: &[usize]) -> bool {
        self.signatures[signature].is_none() || (self.good(signature) && self.all_present(fields))
    }

    /// "Hkre is trusted after WBCV3 with signature 5 present".
    pub fn trusted_hkre(&self) -> Option<Hash> {
        self.signatures[CERT_KRE_KRA].and(self.facts[HKRE])
    }

    /// "Hkm after 3 or 4."
    pub fn trusted_hkm(&self) -> Option<Hash> {
        self.signatures[CERT_KM_KMC]
            .or(self.signatures[CERT_KM_KMC_KFIPS])
            .and(self.facts[HKM])
    }
}

pub fn read_bundle(file: &[u8]) -> Result<Bundle, Refusal> {
    let mut reader = BundleReader::default();
    for record in records(file) {
        reader.add(record)?;
    }
    reader.end()
}

/// Takes a bundle's records one by one, whether they come from a file or from a text.
#[derive(Default)]
pub struct BundleReader {
    facts: [Option<Hash>; 14],
    listed: Vec<Hash>,
    signatures: [Option<bool>; 7],
    policy: Option<Policy>,
    /// Kind and number of the last record.
    before: (u8, u8),
}

impl BundleReader {
    /// "Bundle records stand in rising order of kind and number, each pair once, except field 14 (0
    /// to 32 times, repeats allowed)."
    pub fn add(&mut self, record: Record) -> Result<(), Refusal> {
        // A policy has no number of its own: a second one does not rise.
        let place = if record.kind() == 12 {
            (12, 0)
        } else {
            (record.kind(), record.byte(4))
        };
        let again = self.before == place && place == (10, LISTED_FIELD);
        malformed_unless(self.before < place || again)?;
        self.before = place;
        match record.kind() {
            10 => add_fact(&mut self.facts, &mut self.listed, record),
            11 => add_signature(&mut self.signatures, record),
            12 => {
                self.policy = Some(read_policy(record)?);
                Ok(())
            }
            _ => Err(Refusal::Malformed),
        }
    }

    /// "Other than one policy gives 2."
    pub fn end(self) -> Result<Bundle, Refusal> {
        Ok(Bundle {
            facts: self.facts,
            listed: self.listed,
            signatures: self.signatures,
            policy: self.policy.ok_or(Refusal::Malformed)?,
        })
    }
}

/// "10 fact: byte 4 field 1-14, 8-27 content."
fn add_fact(
    facts: &mut [Option<Hash>; 14],
    listed: &mut Vec<Hash>,
    record: Record,
) -> Result<(), Refusal> {
    record.check_zeros(0, &[(4, 4), (8, 27)])?;
    let field = record.byte(4);
    malformed_unless((1..=LISTED_FIELD).contains(&field))?;
    if field < LISTED_FIELD {
        facts[usize::from(field)] = Some(record.hash(8));
        return Ok(());
    }
    push_up_to(listed, record.hash(8), MOST_LISTED)
}

/// "11 signature outcome: byte 4 number 1-6, byte 5 one if good, else zero."
fn add_signature(signatures: &mut [Option<bool>; 7], record: Record) -> Result<(), Refusal> {
    record.check_zeros(0, &[(4, 5)])?;
    let number = record.byte(4);
    malformed_unless((1..=LAST_SIGNATURE).contains(&number) && record.byte(5) <= 1)?;
    signatures[usize::from(number)] = Some(record.byte(5) == 1);
    Ok(())
}

/// "12 policy: byte 4 suite, byte 5 approach 1 or 2, byte 6 bits [...], byte 7 lowest protection
/// 1-4." The suite is no matter of refusal 2.
fn read_policy(record: Record) -> Result<Policy, Refusal> {
    record.check_zeros(0, &[(4, 7)])?;
    let policy = Policy {
        suite: record.byte(4),
        approach: record.byte(5),
        bits: record.byte(6),
        lowest_protection: record.byte(7),
    };
    let all_bits = SIGNING_ADMITTED | ENCRYPTION_ADMITTED | CSR_IN_USE;
    malformed_unless((1..=2).contains(&policy.approach))?;
    malformed_unless(policy.bits & !all_bits == 0)?;
    malformed_unless((1..=4).contains(&policy.lowest_protection))?;
    Ok(policy)
}
