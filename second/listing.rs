//! The text form of an ACL: one line per record, each ended by one byte 10.

use crate::acl::{Acl, Action, Group, Limit, MakeBlob, Sort, TokenParameters, ALLOW_SOFT_SLOTS};
use crate::blobfile::BlobFile;
use crate::read_acl::{check_acl_length, read_acl};
use crate::record::{hex, write_front, Hash, Refusal};

/// The permissions' names, each at its bit.
pub const PERMISSIONS: [&str; 16] = [
    "DuplicateHandle",
    "GetAppData",
    "ReduceACL",
    "GetACL",
    "Sign",
    "Verify",
    "SignModuleCert",
    "UseAsCertificate",
    "Encrypt",
    "Decrypt",
    "ExportAsPlain",
    "SetAppData",
    "ExpandACL",
    "UseAsBlobKey",
    "UseAsKM",
    "UseAsLoaderKey",
];

/// Writes an ACL's listing: "a bad ACL gives its own number; then a short buffer gives 9."
pub fn write_listing(acl: &[u8], buffer: &mut [u8]) -> Result<usize, Refusal> {
    check_acl_length(acl)?;
    let text = listing(&read_acl(acl)?);
    write_front(buffer, text.as_bytes())
}

/// The listing of an ACL. Nothing is checked here, so that the lines of a malformed one can be
/// written too.
pub fn listing(acl: &Acl) -> String {
    let mut lines = Vec::new();
    for group in &acl.groups {
        lines.push(group_words(group));
        lines.extend(group.limits.iter().map(limit_words));
        lines.extend(group.actions.iter().flat_map(action_lines));
    }
    joined(lines)
}

/// The text of these lines: one space between two words, one byte 10 at the end of each line.
pub fn joined(lines: Vec<Words>) -> String {
    let mut text = String::new();
    for words in lines {
        text += &words.join(" ");
        text.push('\n');
    }
    text
}

/// The words of a line.
pub type Words = Vec<String>;

pub fn word(word: &str) -> String {
    word.to_string()
}

pub fn add_flag(words: &mut Words, name: &str, set: bool) {
    if set {
        words.push(word(name));
    }
}

pub fn add_hash(words: &mut Words, name: &str, hash: &Hash) {
    words.extend([word(name), hex(hash)]);
}

fn add_optional_hash(words: &mut Words, name: &str, hash: &Option<Hash>) {
    if let Some(hash) = hash {
        add_hash(words, name, hash);
    }
}

pub fn add_number(words: &mut Words, name: &str, number: u64) {
    words.extend([word(name), number.to_string()]);
}

/// The names of the permissions that the mask holds, in the order of their bits.
pub fn add_permissions(words: &mut Words, mask: u16) {
    for (bit, name) in PERMISSIONS.iter().enumerate() {
        add_flag(words, name, mask >> bit & 1 == 1);
    }
}

fn group_words(group: &Group) -> Words {
    let mut words = vec![word("group")];
    add_optional_hash(&mut words, "certifier", &group.certifier);
    if let Some(mechanism) = group.mechanism {
        add_number(&mut words, "mechanism", mechanism.into());
    }
    words
}

fn limit_words(limit: &Limit) -> Words {
    let mut words = vec![word("limit")];
    if let Sort::Counter(counter) = limit.sort {
        add_number(&mut words, "counter", counter.into());
    }
    let counted = match limit.sort {
        Sort::UsesPerLoad | Sort::Counter(_) => "uses",
        Sort::SecondsSinceLoad => "seconds",
    };
    add_number(&mut words, counted, limit.maximum.into());
    words
}

/// An action's line, and that of its blobfile.
fn action_lines(action: &Action) -> Vec<Words> {
    let mut words = action_words(action);
    match action.blobfile() {
        Some(file) => {
            words.push(word("blobfile"));
            vec![words, blobfile_words(&file)]
        }
        None => vec![words],
    }
}

pub fn blobfile_words(file: &BlobFile) -> Words {
    let mut words = vec![word("blobfile")];
    if let Some(devices) = file.devices {
        add_number(&mut words, "devices", devices.into());
    }
    add_optional_hash(&mut words, "template", &file.template);
    words
}

fn action_words(action: &Action) -> Words {
    match action {
        Action::OpPermissions(bits) => {
            let mut words = vec![word("OpPermissions")];
            add_permissions(&mut words, *bits);
            words
        }
        Action::MakeBlob(blob) => make_blob_words(blob),
        Action::MakeArchiveBlob(blob) => {
            let mut words = vec![word("MakeArchiveBlob")];
            add_optional_hash(&mut words, "kahash", &blob.kahash);
            add_number(&mut words, "mechanism", blob.mechanism.into());
            words
        }
    }
}

fn make_blob_words(blob: &MakeBlob) -> Words {
    let mut words = vec![word("MakeBlob")];
    add_flag(&mut words, "AllowKmOnly", blob.allow_km_only);
    add_flag(&mut words, "AllowNonKm0", blob.allow_non_km0);
    add_optional_hash(&mut words, "kmhash", &blob.kmhash);
    add_optional_hash(&mut words, "kthash", &blob.kthash);
    if let Some(parameters) = &blob.ktparams {
        words.push(word("ktparams"));
        add_parameters(&mut words, parameters);
    }
    add_flag(&mut words, "AllowNullKmToken", blob.allow_null_km_token);
    words
}

pub fn add_parameters(words: &mut Words, parameters: &TokenParameters) {
    let soft = parameters.flags & ALLOW_SOFT_SLOTS != 0;
    add_flag(words, "AllowSoftSlots", soft);
    add_number(words, "needed", parameters.needed.into());
    add_number(words, "total", parameters.total.into());
    add_number(words, "seconds", parameters.time_limit.into());
}

#[cfg(test)]
mod tests {
    use super::*;
    use crate::acl::MakeArchiveBlob;
    use crate::encode;

    fn sign_group(sort: Sort, maximum: u32) -> Group {
        Group {
            limits: vec![Limit { sort, maximum }],
            actions: vec![Action::OpPermissions(1 << 4)],
            ..Group::default()
        }
    }

    #[test]
    fn the_two_sign_groups_of_document_01() {
        let acl = Acl {
            groups: vec![
                sign_group(Sort::UsesPerLoad, 1),
                sign_group(Sort::Counter(3), 2),
            ],
        };
        let text = "group\nlimit uses 1\nOpPermissions Sign\n\
                    group\nlimit counter 3 uses 2\nOpPermissions Sign\n";
        assert_eq!(listing(&acl), text);
        let mut buffer = [b'#'; 100];
        assert_eq!(
            write_listing(&encode::acl(&acl), &mut buffer),
            Ok(text.len())
        );
        assert_eq!(&buffer[..text.len()], text.as_bytes());
        assert!(buffer[text.len()..].iter().all(|byte| *byte == b'#'));
    }

    #[test]
    fn every_word_in_its_place() {
        let parameters = TokenParameters {
            flags: 1,
            needed: 2,
            total: 64,
            time_limit: 0,
        };
        let blob = MakeBlob {
            allow_km_only: true,
            allow_non_km0: true,
            allow_null_km_token: true,
            kmhash: Some([0xab; 20]),
            kthash: Some([0; 20]),
            ktparams: Some(parameters),
            blobfile: Some(BlobFile {
                devices: Some(5),
                template: Some([1; 20]),
            }),
        };
        let group = Group {
            certifier: Some([9; 20]),
            mechanism: Some(65535),
            limits: vec![Limit {
                sort: Sort::SecondsSinceLoad,
                maximum: u32::MAX,
            }],
            actions: vec![
                Action::OpPermissions(0x8001),
                Action::MakeBlob(blob),
                Action::MakeArchiveBlob(MakeArchiveBlob {
                    kahash: Some([0x10; 20]),
                    mechanism: 3,
                    blobfile: Some(BlobFile::default()),
                }),
            ],
        };
        let text = format!(
            "group certifier {} mechanism 65535\nlimit seconds 4294967295\n\
             OpPermissions DuplicateHandle UseAsLoaderKey\n\
             MakeBlob AllowKmOnly AllowNonKm0 kmhash {} kthash {} ktparams AllowSoftSlots needed 2 total 64 \
             seconds 0 AllowNullKmToken blobfile\nblobfile devices 5 template {}\n\
             MakeArchiveBlob kahash {} mechanism 3 blobfile\nblobfile\n",
            "09".repeat(20),
            "ab".repeat(20),
            "00".repeat(20),
            "01".repeat(20),
            "10".repeat(20)
        );
        let groups = vec![group];
        assert_eq!(listing(&Acl { groups }), text);
    }

    #[test]
    fn refusals_leave_the_buffer() {
        let mut buffer = *b"#####";
        let group = encode::acl(&Acl {
            groups: vec![Group::default()],
        });
        let too_many = group.repeat(65);
        for (file, refusal) in [
            (&group[..63], Refusal::Length),
            (&[0; 64], Refusal::Malformed),
            (&too_many, Refusal::TooMany),
            (&group, Refusal::ShortBuffer),
        ] {
            assert_eq!(write_listing(file, &mut buffer), Err(refusal));
        }
        assert_eq!(&buffer, b"#####");
        assert_eq!(write_listing(&[], &mut []), Ok(0));
    }
}
