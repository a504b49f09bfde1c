//! Writes the files that the readers read. Nothing is checked here, so that malformed files can be
//! written too.

use crate::acl::{Acl, Action, Group, Limit, MakeBlob, Sort, TokenParameters};
use crate::blobfile::{BlobFile, BLOBFILE_FLAG};
use crate::bundle::{Bundle, Policy, LISTED_FIELD};
use crate::record::{Hash, RECORD_LENGTH};
use crate::replace::Hint;
use crate::request::{Asked, Certificate, Delegation, Presented, Request};

pub type RecordBytes = [u8; RECORD_LENGTH];

pub fn record(kind: u8) -> RecordBytes {
    let mut bytes = [0; RECORD_LENGTH];
    bytes[0] = kind;
    bytes
}

pub fn put(bytes: &mut RecordBytes, place: usize, part: &[u8]) {
    bytes[place..place + part.len()].copy_from_slice(part);
}

/// Sets a flag below 8; the records know no higher one.
pub fn set_flag(bytes: &mut RecordBytes, flag: u32) {
    bytes[3] |= 1 << flag;
}

/// A hash that is there, and its flag.
pub fn put_hash(bytes: &mut RecordBytes, flag: u32, place: usize, hash: &Hash) {
    set_flag(bytes, flag);
    put(bytes, place, hash);
}

fn put_optional_hash(bytes: &mut RecordBytes, flag: u32, place: usize, hash: &Option<Hash>) {
    if let Some(hash) = hash {
        put_hash(bytes, flag, place, hash);
    }
}

fn put_parameters(bytes: &mut RecordBytes, place: usize, parameters: &TokenParameters) {
    put(bytes, place, &parameters.flags.to_be_bytes());
    put(bytes, place + 2, &[parameters.needed, parameters.total]);
    put(bytes, place + 4, &parameters.time_limit.to_be_bytes());
}

pub fn acl(acl: &Acl) -> Vec<u8> {
    acl_records(acl).concat()
}

pub fn acl_records(acl: &Acl) -> Vec<RecordBytes> {
    let mut list = Vec::new();
    for group in &acl.groups {
        list.push(group_record(group));
        list.extend(group.limits.iter().map(limit_record));
        for action in &group.actions {
            list.push(action_record(action));
            list.extend(action.blobfile().iter().map(blobfile_record));
        }
    }
    list
}

pub fn group_record(group: &Group) -> RecordBytes {
    let mut bytes = record(1);
    put_optional_hash(&mut bytes, 0, 4, &group.certifier);
    if let Some(mechanism) = group.mechanism {
        set_flag(&mut bytes, 1);
        put(&mut bytes, 24, &mechanism.to_be_bytes());
    }
    bytes
}

pub fn limit_record(limit: &Limit) -> RecordBytes {
    let mut bytes = record(2);
    let (sort, counter) = match limit.sort {
        Sort::UsesPerLoad => (1, 0),
        Sort::Counter(counter) => (2, counter),
        Sort::SecondsSinceLoad => (3, 0),
    };
    put(&mut bytes, 4, &[sort, counter]);
    put(&mut bytes, 8, &limit.maximum.to_be_bytes());
    bytes
}

/// An action's own record, without its kind 15.
pub fn action_record(action: &Action) -> RecordBytes {
    let mut bytes = match action {
        Action::OpPermissions(bits) => {
            let mut bytes = record(3);
            put(&mut bytes, 4, &bits.to_be_bytes());
            bytes
        }
        Action::MakeBlob(blob) => make_blob_record(blob),
        Action::MakeArchiveBlob(blob) => {
            let mut bytes = record(5);
            put_optional_hash(&mut bytes, 0, 4, &blob.kahash);
            put(&mut bytes, 24, &blob.mechanism.to_be_bytes());
            bytes
        }
    };
    if action.blobfile().is_some() {
        set_flag(&mut bytes, BLOBFILE_FLAG);
    }
    bytes
}

pub fn blobfile_record(file: &BlobFile) -> RecordBytes {
    let mut bytes = record(15);
    if let Some(devices) = file.devices {
        set_flag(&mut bytes, 0);
        put(&mut bytes, 4, &devices.to_be_bytes());
    }
    put_optional_hash(&mut bytes, 1, 8, &file.template);
    bytes
}

fn make_blob_record(blob: &MakeBlob) -> RecordBytes {
    let mut bytes = record(4);
    for (flag, set) in [
        (0, blob.allow_km_only),
        (1, blob.allow_non_km0),
        (5, blob.allow_null_km_token),
    ] {
        if set {
            set_flag(&mut bytes, flag);
        }
    }
    put_optional_hash(&mut bytes, 2, 4, &blob.kmhash);
    put_optional_hash(&mut bytes, 3, 24, &blob.kthash);
    if let Some(parameters) = &blob.ktparams {
        set_flag(&mut bytes, 4);
        put_parameters(&mut bytes, 44, parameters);
    }
    bytes
}

pub fn request(request: &Request, presented: &Presented) -> Vec<u8> {
    let mut file = request_record(request).to_vec();
    file.extend(request.blobfile.iter().flat_map(blobfile_record));
    file.extend(presented.certificates.iter().flat_map(certificate_record));
    file.extend(presented.delegations.iter().flat_map(delegation_record));
    file
}

/// The request's own record, without its kind 15.
pub fn request_record(request: &Request) -> RecordBytes {
    let mut bytes = match &request.asked {
        Asked::Use(permission) => {
            let mut bytes = record(6);
            bytes[4] = *permission;
            bytes
        }
        Asked::Blob { module_key, token } => {
            let mut bytes = record(7);
            put(&mut bytes, 4, module_key);
            if let Some(token) = token {
                set_flag(&mut bytes, 0);
                put(&mut bytes, 24, &token.hash);
                put_parameters(&mut bytes, 44, &token.parameters);
            }
            bytes
        }
        Asked::Recovery { key, mechanism } => {
            let mut bytes = record(8);
            put(&mut bytes, 4, key);
            put(&mut bytes, 24, &mechanism.to_be_bytes());
            bytes
        }
    };
    if request.blobfile.is_some() {
        set_flag(&mut bytes, BLOBFILE_FLAG);
    }
    put(&mut bytes, 56, &request.time.to_be_bytes());
    bytes
}

pub fn certificate_record(certificate: &Certificate) -> RecordBytes {
    let mut bytes = record(9);
    put(&mut bytes, 4, &certificate.key);
    put(&mut bytes, 24, &certificate.mechanism.to_be_bytes());
    bytes
}

pub fn delegation_record(delegation: &Delegation) -> RecordBytes {
    let mut bytes = record(14);
    put(&mut bytes, 4, &delegation.from);
    put(&mut bytes, 24, &delegation.to);
    put(&mut bytes, 44, &delegation.mask.to_be_bytes());
    bytes
}

pub fn hints(hints: &[Hint]) -> Vec<u8> {
    hints.iter().flat_map(hint_record).collect()
}

pub fn hint_record(hint: &Hint) -> RecordBytes {
    let mut bytes = record(13);
    bytes[4] = hint.source;
    put(&mut bytes, 8, &hint.actions);
    bytes
}

pub fn bundle(bundle: &Bundle) -> Vec<u8> {
    let mut file = Vec::new();
    for (field, fact) in bundle.facts.iter().enumerate() {
        if let Some(content) = fact {
            file.extend(fact_record(field as u8, content));
        }
    }
    for content in &bundle.listed {
        file.extend(fact_record(LISTED_FIELD, content));
    }
    for (number, signature) in bundle.signatures.iter().enumerate() {
        if let Some(good) = signature {
            file.extend(signature_record(number as u8, u8::from(*good)));
        }
    }
    file.extend(policy_record(&bundle.policy));
    file
}

pub fn fact_record(field: u8, content: &Hash) -> RecordBytes {
    let mut bytes = record(10);
    bytes[4] = field;
    put(&mut bytes, 8, content);
    bytes
}

pub fn signature_record(number: u8, outcome: u8) -> RecordBytes {
    let mut bytes = record(11);
    put(&mut bytes, 4, &[number, outcome]);
    bytes
}

pub fn policy_record(policy: &Policy) -> RecordBytes {
    let mut bytes = record(12);
    put(
        &mut bytes,
        4,
        &[
            policy.suite,
            policy.approach,
            policy.bits,
            policy.lowest_protection,
        ],
    );
    bytes
}
