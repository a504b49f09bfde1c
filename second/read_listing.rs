//! Reading a listing back: the lines of an ACL, and the words of which every text is made.

use std::collections::VecDeque;

use crate::blobfile::BLOBFILE_FLAG;
use crate::encode::{put, put_hash, record, set_flag, RecordBytes};
use crate::listing::PERMISSIONS;
use crate::read_text::file_of;
use crate::record::{write_front, Hash, Refusal};
use crate::text::TextKind;

/// Reads a listing: "a line that is not the written form of a record valid there gives a new number
/// 15 and the first such line's number, from 1 [...]; then a short buffer gives 9."
pub fn read_listing(text: &[u8], buffer: &mut [u8]) -> Result<usize, Refusal> {
    write_front(buffer, &file_of(TextKind::Acl, text)?)
}

/// The record of an ACL's line, from its first word and the words after it.
pub fn acl_record(first: &[u8], words: &mut Words) -> Option<RecordBytes> {
    match first {
        b"group" => group_record(words),
        b"limit" => limit_record(words),
        b"OpPermissions" => op_permissions_record(words),
        b"MakeBlob" => make_blob_record(words),
        b"MakeArchiveBlob" => make_archive_blob_record(words),
        b"blobfile" => blobfile_record(words),
        _ => None,
    }
}

/// The words of a line that have not been taken yet.
pub struct Words<'a> {
    rest: VecDeque<&'a [u8]>,
}

impl<'a> Words<'a> {
    /// The words of a line without its byte 10.
    pub fn of(line: &'a [u8]) -> Words<'a> {
        Words {
            rest: line.split(|byte| *byte == b' ').collect(),
        }
    }

    pub fn is_empty(&self) -> bool {
        self.rest.is_empty()
    }

    pub fn next(&mut self) -> Option<&'a [u8]> {
        self.rest.pop_front()
    }

    /// Takes that word if it stands next.
    pub fn take(&mut self, word: &str) -> bool {
        let stands = self.rest.front() == Some(&word.as_bytes());
        if stands {
            self.rest.pop_front();
        }
        stands
    }

    /// A number, where it fits its field.
    pub fn number<N: TryFrom<u64>>(&mut self) -> Option<N> {
        N::try_from(decimal(self.next()?)?).ok()
    }

    /// That word and the number after it.
    pub fn named_number<N: TryFrom<u64>>(&mut self, word: &str) -> Option<N> {
        self.take(word).then_some(())?;
        self.number()
    }

    pub fn hash(&mut self) -> Option<Hash> {
        hash(self.next()?)
    }

    /// That word and the hash after it.
    pub fn named_hash(&mut self, word: &str) -> Option<Hash> {
        self.take(word).then_some(())?;
        self.hash()
    }

    /// Names of permissions in the order of their bits, each at most once; their mask.
    pub fn permissions(&mut self) -> u16 {
        let mut mask = 0;
        for (bit, name) in PERMISSIONS.iter().enumerate() {
            if self.take(name) {
                mask |= 1 << bit;
            }
        }
        mask
    }

    /// `[AllowSoftSlots] needed N total N seconds N`, the eight bytes of token parameters.
    pub fn parameters(&mut self) -> Option<[u8; 8]> {
        let soft = self.take("AllowSoftSlots");
        let needed = self.named_number("needed")?;
        let total = self.named_number("total")?;
        let [a, b, c, d] = self.named_number::<u32>("seconds")?.to_be_bytes();
        Some([0, u8::from(soft), needed, total, a, b, c, d])
    }
}

/// A number "in decimal without leading zeros".
fn decimal(word: &[u8]) -> Option<u64> {
    let leading_zero = word.len() > 1 && word[0] == b'0';
    if word.is_empty() || leading_zero {
        return None;
    }
    word.iter().try_fold(0u64, |number, byte| {
        let digit = byte.is_ascii_digit().then(|| u64::from(byte - b'0'))?;
        number.checked_mul(10)?.checked_add(digit)
    })
}

/// "40 lower-case hexadecimal digits".
fn hash(word: &[u8]) -> Option<Hash> {
    let mut hash = [0; 20];
    if word.len() != 40 {
        return None;
    }
    for (byte, pair) in hash.iter_mut().zip(word.chunks(2)) {
        *byte = digit(pair[0])? * 16 + digit(pair[1])?;
    }
    Some(hash)
}

fn digit(letter: u8) -> Option<u8> {
    match letter {
        b'0'..=b'9' => Some(letter - b'0'),
        b'a'..=b'f' => Some(letter - b'a' + 10),
        _ => None,
    }
}

/// `[NAME HASH]`, for a flag and a place of a record; nothing where the word after the name is no
/// hash.
fn optional_hash(
    words: &mut Words,
    name: &str,
    record: &mut RecordBytes,
    flag: u32,
    place: usize,
) -> Option<()> {
    if words.take(name) {
        put_hash(record, flag, place, &words.hash()?);
    }
    Some(())
}

/// `[NAME]`, for a flag of a record.
pub fn optional_flag(words: &mut Words, name: &str, record: &mut RecordBytes, flag: u32) {
    if words.take(name) {
        set_flag(record, flag);
    }
}

/// `mechanism N`, in bytes 24-25 of every record that has one.
pub fn put_mechanism(words: &mut Words, record: &mut RecordBytes) -> Option<()> {
    let mechanism: u16 = words.named_number("mechanism")?;
    put(record, 24, &mechanism.to_be_bytes());
    Some(())
}

/// `group [certifier HASH] [mechanism N]`
fn group_record(words: &mut Words) -> Option<RecordBytes> {
    let mut bytes = record(1);
    optional_hash(words, "certifier", &mut bytes, 0, 4)?;
    if !words.is_empty() {
        set_flag(&mut bytes, 1);
        put_mechanism(words, &mut bytes)?;
    }
    Some(bytes)
}

/// `limit uses N`, `limit counter N uses N` or `limit seconds N`
fn limit_record(words: &mut Words) -> Option<RecordBytes> {
    let mut bytes = record(2);
    let (sort, counter, counted) = match *words.rest.front()? {
        b"uses" => (1, 0, "uses"),
        b"counter" => (2, words.named_number("counter")?, "uses"),
        _ => (3, 0, "seconds"),
    };
    put(&mut bytes, 4, &[sort, counter]);
    let maximum: u32 = words.named_number(counted)?;
    put(&mut bytes, 8, &maximum.to_be_bytes());
    Some(bytes)
}

/// `OpPermissions [DuplicateHandle] .. [UseAsLoaderKey]`
fn op_permissions_record(words: &mut Words) -> Option<RecordBytes> {
    let mut bytes = record(3);
    put(&mut bytes, 4, &words.permissions().to_be_bytes());
    Some(bytes)
}

/// `MakeBlob [AllowKmOnly] [AllowNonKm0] [kmhash HASH] [kthash HASH] [ktparams ..]
/// [AllowNullKmToken] [blobfile]`
fn make_blob_record(words: &mut Words) -> Option<RecordBytes> {
    let mut bytes = record(4);
    optional_flag(words, "AllowKmOnly", &mut bytes, 0);
    optional_flag(words, "AllowNonKm0", &mut bytes, 1);
    optional_hash(words, "kmhash", &mut bytes, 2, 4)?;
    optional_hash(words, "kthash", &mut bytes, 3, 24)?;
    if words.take("ktparams") {
        set_flag(&mut bytes, 4);
        put(&mut bytes, 44, &words.parameters()?);
    }
    optional_flag(words, "AllowNullKmToken", &mut bytes, 5);
    optional_flag(words, "blobfile", &mut bytes, BLOBFILE_FLAG);
    Some(bytes)
}

/// `MakeArchiveBlob [kahash HASH] mechanism N [blobfile]`
fn make_archive_blob_record(words: &mut Words) -> Option<RecordBytes> {
    let mut bytes = record(5);
    optional_hash(words, "kahash", &mut bytes, 0, 4)?;
    put_mechanism(words, &mut bytes)?;
    optional_flag(words, "blobfile", &mut bytes, BLOBFILE_FLAG);
    Some(bytes)
}

/// `blobfile [devices N] [template HASH]`
fn blobfile_record(words: &mut Words) -> Option<RecordBytes> {
    let mut bytes = record(15);
    if words.rest.front() == Some(&b"devices".as_slice()) {
        set_flag(&mut bytes, 0);
        let devices: u32 = words.named_number("devices")?;
        put(&mut bytes, 4, &devices.to_be_bytes());
    }
    optional_hash(words, "template", &mut bytes, 1, 8)?;
    Some(bytes)
}

#[cfg(test)]
mod tests {
    use super::*;
    use crate::call::Bytes;
    use crate::encode;
    use crate::listing::listing;
    use crate::maker::Maker;

    fn read(text: &str) -> Result<Bytes, Refusal> {
        let mut buffer = vec![b'#'; 1000];
        let length = read_listing(text.as_bytes(), &mut buffer)?;
        assert!(buffer[length..].iter().all(|byte| *byte == b'#'));
        buffer.truncate(length);
        Ok(buffer)
    }

    fn bad_line(text: &str) -> usize {
        match read(text) {
            Err(Refusal::NotALine { line }) => line,
            other => panic!("{text:?} {other:?}"),
        }
    }

    #[test]
    fn every_listing_reads_back() {
        let mut maker = Maker::new(11, true);
        let mut buffer = vec![0; 86_016];
        for _ in 0..300 {
            let acl = maker.acl();
            let file = encode::acl(&acl);
            let length = read_listing(listing(&acl).as_bytes(), &mut buffer);
            assert_eq!(length, Ok(file.len()));
            assert_eq!(buffer[..file.len()], file);
        }
    }

    #[test]
    fn the_empty_text_is_the_empty_acl() {
        assert_eq!(read(""), Ok(Vec::new()));
        assert_eq!(bad_line("\n"), 1);
    }

    #[test]
    fn the_first_bad_line_is_named() {
        assert_eq!(read("group\n").map(|file| file.len()), Ok(64));
        assert_eq!(bad_line("group"), 1);
        assert_eq!(bad_line("group\ngroup\nlimit uses 01\nxyz\n"), 3);
        assert_eq!(bad_line("limit uses 1\n"), 1);
        assert_eq!(bad_line(&"group\n".repeat(65)), 65);
        assert_eq!(bad_line("group\nOpPermissions Sign\nlimit uses 1\n"), 3);
        assert_eq!(bad_line("group\nlimit uses 1\nlimit uses 2\n"), 3);
        assert_eq!(bad_line("group\nlimit counter 256 uses 1\n"), 2);
        assert_eq!(bad_line("group\nMakeArchiveBlob mechanism 1\n"), 2);
    }

    #[test]
    fn a_blobfile_line_where_it_is_due_and_nowhere_else() {
        let action = "group\nMakeBlob blobfile\n";
        let good = format!("{action}blobfile devices 4294967295\nMakeBlob\n");
        assert_eq!(read(&good).map(|file| file.len()), Ok(256));
        assert_eq!(bad_line(action), 3);
        assert_eq!(bad_line(&format!("{action}MakeBlob\n")), 3);
        assert_eq!(bad_line(&format!("{action}blobfile devices 01\n")), 3);
        assert_eq!(bad_line(&format!("{action}blobfile devices\n")), 3);
        assert_eq!(bad_line(&format!("{action}blobfile\nblobfile\n")), 4);
        assert_eq!(bad_line("group\nblobfile\n"), 2);
        assert_eq!(bad_line("group\nOpPermissions blobfile\nblobfile\n"), 2);
    }

    #[test]
    fn only_the_written_form_of_a_line() {
        for line in [
            " group",
            "group ",
            "Group",
            "group  mechanism 1",
            "group mechanism 1",
            "limit",
            "limit uses",
            "limit uses 4294967296",
            "limit uses +1",
            "limit uses 00",
            "limit counter 1 seconds 2",
            "OpPermissions Verify Sign",
            "OpPermissions Sign Sign",
            "OpPermissions sign",
            "MakeArchiveBlob",
            "MakeArchiveBlob mechanism 0",
            "MakeArchiveBlob mechanism 65536",
            "MakeBlob AllowNonKm0 AllowKmOnly",
            "MakeBlob kmhash",
            "MakeBlob kmhash 00",
            "MakeBlob ktparams needed 0 total 1 seconds 0",
            "MakeBlob ktparams needed 1 total 65 seconds 0",
            "MakeBlob ktparams needed 1 total 2",
            "group\r",
            "",
        ] {
            assert_eq!(bad_line(&format!("group\n{line}\n")), 2, "{line:?}");
        }
        let upper = format!("group certifier {}\n", "AB".repeat(20));
        assert_eq!(bad_line(&upper), 1);
        assert!(read(&upper.to_lowercase()).is_ok());
    }

    #[test]
    fn a_bad_line_comes_before_a_short_buffer() {
        let mut buffer = [b'#'; 63];
        let reply = read_listing(b"group\nx\n", &mut buffer);
        assert_eq!(reply, Err(Refusal::NotALine { line: 2 }));
        let reply = read_listing(b"group\n", &mut buffer);
        assert_eq!(reply, Err(Refusal::ShortBuffer));
        assert_eq!(buffer, [b'#'; 63]);
    }
}
