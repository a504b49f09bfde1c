//! The text forms of the five kinds of file: one line per record, each ended by one byte 10. The
//! lines of an ACL are those of its listing.

use crate::acl::MOST_ACL_RECORDS;
use crate::bundle::{
    read_bundle, Bundle, Policy, CSR_IN_USE, ENCRYPTION_ADMITTED, LISTED_FIELD,
    MOST_BUNDLE_RECORDS, SIGNING_ADMITTED,
};
use crate::day::{read_requests, MOST_REQUESTS};
use crate::listing::{
    add_flag, add_hash, add_number, add_parameters, add_permissions, blobfile_words, joined,
    listing, word, Words, PERMISSIONS,
};
use crate::read_acl::read_acl;
use crate::record::{check_length, write_front, Hash, Refusal};
use crate::replace::{read_hints, Hint, MOST_HINTS};
use crate::request::{
    read_request, Asked, Certificate, Delegation, Presented, Request, MOST_REQUEST_RECORDS,
};

/// The names of fields 1 to 14.
pub const FACTS: [&str; 14] = [
    "warrantESN",
    "stateESN",
    "KML",
    "HKNSO",
    "knsopub",
    "hkm",
    "hkre",
    "kcmsg",
    "pubkeydata",
    "csr",
    "hkra",
    "hkmc",
    "hkfips",
    "modulekey",
];

/// The names of signatures 1 to 6.
pub const SIGNATURES: [&str; 6] = [
    "warrant",
    "modulestate",
    "CertKMaKMCbKNSO",
    "CertKMaKMCaKFIPSbKNSO",
    "CertKREaKRAbKNSO",
    "keygeneration",
];

/// The kinds of file that have a text form.
#[derive(Clone, Copy, Debug, PartialEq)]
pub enum TextKind {
    Acl,
    /// A request record, its kind 15 record, certificates and delegations.
    Request,
    /// Request records that stand alone, as the day program reads them.
    Requests,
    Bundle,
    Hints,
}

impl TextKind {
    pub const ALL: [TextKind; 5] = [
        TextKind::Acl,
        TextKind::Request,
        TextKind::Requests,
        TextKind::Bundle,
        TextKind::Hints,
    ];

    /// The kind of that number in a replay script; a number over 4 is refused with 10.
    pub fn of(number: u64) -> Result<TextKind, Refusal> {
        let place = usize::try_from(number).unwrap_or(usize::MAX);
        TextKind::ALL
            .get(place)
            .copied()
            .ok_or(Refusal::NoSuchNumber)
    }

    pub fn most_records(self) -> usize {
        match self {
            TextKind::Acl => MOST_ACL_RECORDS,
            TextKind::Request => MOST_REQUEST_RECORDS,
            TextKind::Requests => MOST_REQUESTS,
            TextKind::Bundle => MOST_BUNDLE_RECORDS,
            TextKind::Hints => MOST_HINTS,
        }
    }
}

/// Writes a file's text: "a bad file gives its own number; then a short buffer gives 9." An unknown
/// kind is refused before anything else is looked at.
pub fn write_text(kind: u64, file: &[u8], buffer: &mut [u8]) -> Result<usize, Refusal> {
    let text = text_of(TextKind::of(kind)?, file)?;
    write_front(buffer, text.as_bytes())
}

/// The text of a file without fault. Suites and what hints name are no faults of a file.
pub fn text_of(kind: TextKind, file: &[u8]) -> Result<String, Refusal> {
    check_length(file, kind.most_records())?;
    Ok(match kind {
        TextKind::Acl => listing(&read_acl(file)?),
        TextKind::Request => {
            let (request, presented) = read_request(file, None)?;
            request_text(&request, &presented)
        }
        TextKind::Requests => requests_text(&read_requests(file)?),
        TextKind::Bundle => bundle_text(&read_bundle(file)?),
        TextKind::Hints => hints_text(&read_hints(file)?),
    })
}

/// The text of a request file. Nothing is checked in these writers, so that the lines of a malformed
/// file can be written too.
pub fn request_text(request: &Request, presented: &Presented) -> String {
    let mut lines = vec![request_words(request)];
    lines.extend(request.blobfile.iter().map(blobfile_words));
    lines.extend(presented.certificates.iter().map(certificate_words));
    lines.extend(presented.delegations.iter().map(delegation_words));
    joined(lines)
}

/// The text of request records alone, without the lines of their kind 15 records.
pub fn requests_text(requests: &[Request]) -> String {
    joined(requests.iter().map(request_words).collect())
}

pub fn bundle_text(bundle: &Bundle) -> String {
    let mut lines = Vec::new();
    for (field, fact) in bundle.facts.iter().enumerate() {
        lines.extend(fact.iter().map(|content| fact_words(field, content)));
    }
    let listed = bundle.listed.iter();
    lines.extend(listed.map(|content| fact_words(LISTED_FIELD.into(), content)));
    for (number, signature) in bundle.signatures.iter().enumerate() {
        lines.extend(signature.map(|good| signature_words(number, good)));
    }
    lines.push(policy_words(&bundle.policy));
    joined(lines)
}

pub fn hints_text(hints: &[Hint]) -> String {
    joined(hints.iter().map(hint_words).collect())
}

/// `use PERMISSION time N`, `blob kmhash HASH [token HASH ..] [blobfile] time N` or
/// `recovery kahash HASH mechanism N [blobfile] time N`
fn request_words(request: &Request) -> Words {
    let mut words = match &request.asked {
        Asked::Use(permission) => {
            vec![word("use"), word(PERMISSIONS[usize::from(*permission)])]
        }
        Asked::Blob { module_key, token } => {
            let mut words = vec![word("blob")];
            add_hash(&mut words, "kmhash", module_key);
            if let Some(token) = token {
                add_hash(&mut words, "token", &token.hash);
                add_parameters(&mut words, &token.parameters);
            }
            words
        }
        Asked::Recovery { key, mechanism } => {
            let mut words = vec![word("recovery")];
            add_hash(&mut words, "kahash", key);
            add_number(&mut words, "mechanism", (*mechanism).into());
            words
        }
    };
    add_flag(&mut words, "blobfile", request.blobfile.is_some());
    add_number(&mut words, "time", request.time);
    words
}

/// `certificate HASH mechanism N`
fn certificate_words(certificate: &Certificate) -> Words {
    let mut words = Words::new();
    add_hash(&mut words, "certificate", &certificate.key);
    add_number(&mut words, "mechanism", certificate.mechanism.into());
    words
}

/// `delegation from HASH to HASH [PERMISSION ..]`
fn delegation_words(delegation: &Delegation) -> Words {
    let mut words = vec![word("delegation")];
    add_hash(&mut words, "from", &delegation.from);
    add_hash(&mut words, "to", &delegation.to);
    add_permissions(&mut words, delegation.mask);
    words
}

/// `fact NAME HASH`
fn fact_words(field: usize, content: &Hash) -> Words {
    let mut words = vec![word("fact")];
    add_hash(&mut words, FACTS[field - 1], content);
    words
}

/// `signature NAME good` or `signature NAME bad`
fn signature_words(number: usize, good: bool) -> Words {
    let outcome = if good { "good" } else { "bad" };
    ["signature", SIGNATURES[number - 1], outcome]
        .map(word)
        .to_vec()
}

/// `policy suite N approach N [signing] [encryption] [csr] protection N`
fn policy_words(policy: &Policy) -> Words {
    let mut words = vec![word("policy")];
    add_number(&mut words, "suite", policy.suite.into());
    add_number(&mut words, "approach", policy.approach.into());
    for (name, bit) in [
        ("signing", SIGNING_ADMITTED),
        ("encryption", ENCRYPTION_ADMITTED),
        ("csr", CSR_IN_USE),
    ] {
        add_flag(&mut words, name, policy.bits & bit != 0);
    }
    add_number(&mut words, "protection", policy.lowest_protection.into());
    words
}

/// `hint group N actions N N N N N N N N`
fn hint_words(hint: &Hint) -> Words {
    let mut words = vec![word("hint")];
    add_number(&mut words, "group", hint.source.into());
    words.push(word("actions"));
    words.extend(hint.actions.iter().map(u8::to_string));
    words
}

#[cfg(test)]
mod tests;
