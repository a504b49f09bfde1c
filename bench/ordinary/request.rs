//! Reading a request: its record, a record of kind 15 where it announces one, certificates, then delegations. Reading hints.

use super::record::*;
use super::{unless, Refusal};

/// A request without fault.
pub struct Request<'a> {
    pub record: &'a Record,
    pub certificates: &'a [Record],
    pub delegations: &'a [Record],
}

impl Request<'_> {
    pub fn time(&self) -> u64 {
        be64(self.record, 56)
    }
}

/// Whether a record is a well-formed request for a use.
pub fn is_use(rec: &Record) -> bool {
    rec[0] == 6 && rec[4] < 16 && USE.clear(rec)
}

/// Whether a record is a well-formed request for a blob.
pub fn is_blob_request(rec: &Record) -> bool {
    match rec[0] {
        7 => BLOB_REQUEST[usize::from(rec[3] & 1)].clear(rec) && (!flag(rec, 0) || parameters(rec).well_formed()),
        8 => RECOVERY_REQUEST.clear(rec) && be16(rec, 24) != 0,
        _ => false,
    }
}

// Exactly one device.
fn is_place(rec: &Record) -> bool {
    rec[0] == 15 && is_blobfile(rec) && flag(rec, 0) && be32(rec, 4).is_power_of_two()
}

fn is_certificate(rec: &Record) -> bool {
    CERTIFICATE.clear(rec) && be16(rec, 24) != 0
}

fn is_delegation(rec: &Record) -> bool {
    rec[0] == 14 && DELEGATION.clear(rec)
}

// The first fault of records that are all of a sort, of which there may be so many.
fn all_of(records: &[Record], sort: impl Fn(&Record) -> bool, most: usize) -> Result<(), Refusal> {
    for (n, rec) in records.iter().enumerate() {
        unless(sort(rec), Refusal::Malformed)?;
        unless(n < most, Refusal::TooMany)?;
    }
    Ok(())
}

fn read_where(records: &[Record], wanted: impl Fn(&Record) -> bool) -> Result<Request<'_>, Refusal> {
    let (record, mut rest) = records.split_first().ok_or(Refusal::Malformed)?;
    unless(wanted(record), Refusal::Malformed)?;
    if flag(record, 6) {
        let (blobfile, others) = rest.split_first().ok_or(Refusal::Malformed)?;
        unless(is_place(blobfile), Refusal::Malformed)?;
        rest = others;
    }
    // What follows the first record that is no certificate has to be delegations.
    let shown = rest.iter().take_while(|rec| rec[0] == 9).count();
    let (certificates, delegations) = rest.split_at(shown);
    all_of(certificates, is_certificate, CERTIFICATES)?;
    all_of(delegations, is_delegation, DELEGATIONS)?;
    Ok(Request { record, certificates, delegations })
}

/// A request of any kind, or the first fault.
pub fn read(records: &[Record]) -> Result<Request<'_>, Refusal> {
    read_where(records, |rec| is_use(rec) || is_blob_request(rec))
}

/// A request that has to be a use of a permission.
pub fn read_use(permission: u8, records: &[Record]) -> Result<Request<'_>, Refusal> {
    read_where(records, |rec| is_use(rec) && rec[4] == permission)
}

/// The first fault of hints.
pub fn check_hints(records: &[Record]) -> Result<(), Refusal> {
    unless(records.iter().all(|rec| rec[0] == 13 && HINT.clear(rec)), Refusal::Malformed)
}
