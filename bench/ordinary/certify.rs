//! Whether a group is certified by what is presented with a request. The delegations are compared with each other and with the certificates once for a
//! request, when the first group needs them; a group is then looked up.

use super::record::*;
use super::request::Request;

// The most delegations of a chain.
const LINKS: usize = 4;

pub struct Presented<'a> {
    certificates: &'a [Record],
    // Those of a use alone: no chain certifies a blob.
    delegations: &'a [Record],
    // The bit of the permission, which each delegation of a chain holds.
    bit: u16,
    // For each delegation the certificates that a chain leads to from it, bit c for certificate c.
    reached: Option<[u32; DELEGATIONS]>,
    // The group that was looked up last, and the answer: groups often have the same certifier.
    last: Option<(&'a Record, bool)>,
}

impl<'a> Presented<'a> {
    pub fn of(req: &Request<'a>) -> Presented<'a> {
        let is_use = req.record[0] == 6;
        Presented {
            certificates: req.certificates,
            delegations: if is_use { req.delegations } else { &[] },
            bit: if is_use { 1 << req.record[4] } else { 0 },
            reached: None,
            last: None,
        }
    }

    /// Whether a group has no certifier, or a presented certificate has its hash and, where named, its mechanism, or a chain leads to such a one.
    pub fn certifies(&mut self, group: &'a Record) -> bool {
        if !flag(group, 0) {
            return true;
        }
        // A group's record is its certifier and mechanism, and nothing else.
        if let Some((_, answer)) = self.last.filter(|(record, _)| *record == group) {
            return answer;
        }
        let answer = self.shows(group) || self.leads_from(group);
        self.last = Some((group, answer));
        answer
    }

    fn fits(group: &Record, certificate: &Record) -> bool {
        optional_mechanism(group).is_none_or(|m| m == be16(certificate, 24))
    }

    fn shows(&self, group: &Record) -> bool {
        let key = hash(group, 4);
        self.certificates.iter().any(|c| same(hash(c, 4), key) && Self::fits(group, c))
    }

    fn leads_from(&mut self, group: &Record) -> bool {
        if self.delegations.is_empty() {
            return false;
        }
        let (delegations, certificates, bit) = (self.delegations, self.certificates, self.bit);
        let reached = self.reached.get_or_insert_with(|| reached(delegations, certificates, bit));
        let key = hash(group, 4);
        let from_here = delegations.iter().zip(reached).filter(|(d, _)| same(hash(d, 4), key));
        let found = from_here.fold(0, |all, (_, certificates)| all | *certificates);
        members(found.into()).any(|c| Self::fits(group, &certificates[c]))
    }
}

// For each delegation that holds the bit the certificates at the end of a chain of at most four that begins with it.
fn reached(delegations: &[Record], certificates: &[Record], bit: u16) -> [u32; DELEGATIONS] {
    let (mut shown, mut next) = ([0; DELEGATIONS], [0; DELEGATIONS]);
    for (i, d) in delegations.iter().enumerate().filter(|(_, d)| be16(d, 44) & bit != 0) {
        let to = hash(d, 24);
        shown[i] = certificates.iter().enumerate().fold(0, |all, (c, rec)| all | u32::from(same(hash(rec, 4), to)) << c);
        next[i] = delegations.iter().enumerate().fold(0, |all, (j, rec)| all | u64::from(same(hash(rec, 4), to)) << j);
    }
    let mut reached = shown;
    for _ in 1..LINKS {
        let before = reached;
        for i in 0..delegations.len() {
            reached[i] = members(next[i]).fold(shown[i], |all, j| all | before[j]);
        }
    }
    reached
}
