//! The record of a line: its words are read in the order in which they are written, so that a record has one line alone. Nothing is read twice.

use super::lines::PERMISSION_NAMES;
use super::record::*;

// What is left of a text. A word ends at a space or at the end of its line.
struct Words<'a>(&'a [u8]);

// Each digit's value; of all other bytes one that is too large.
static VALUES: [u8; 256] = {
    let mut values = [0xff; 256];
    let mut v = 0;
    while v < 16 {
        values[b"0123456789abcdef"[v as usize] as usize] = v;
        v += 1;
    }
    values
};

impl Words<'_> {
    fn is_at_end(&self) -> bool {
        matches!(self.0, [b' ' | b'\n', ..])
    }

    // Takes a word with the space before it.
    fn word(&mut self, word: &str) -> bool {
        let before = self.0;
        self.0 = before.strip_prefix(word.as_bytes()).unwrap_or(before);
        let found = self.0.len() < before.len() && self.is_at_end();
        if !found {
            self.0 = before;
        }
        found
    }

    // A number, without leading zeros.
    fn number(&mut self, most: u32) -> Option<u32> {
        let digits = self.0.strip_prefix(b" ")?;
        let (mut n, mut rest) = (0u64, digits);
        while let [digit @ b'0'..=b'9', after @ ..] = rest {
            n = 10 * n + u64::from(digit - b'0');
            rest = after;
            if n > u64::from(most) {
                return None;
            }
        }
        let length = digits.len() - rest.len();
        self.0 = rest;
        (length > 0 && (length == 1 || digits[0] != b'0') && self.is_at_end()).then_some(n as u32)
    }

    fn hash(&mut self) -> Option<Hash> {
        let (digits, rest) = self.0.strip_prefix(b" ")?.split_first_chunk::<40>()?;
        let (mut hash, mut all) = ([0; 20], 0);
        for (b, pair) in hash.iter_mut().zip(digits.as_chunks::<2>().0) {
            let (high, low) = (VALUES[usize::from(pair[0])], VALUES[usize::from(pair[1])]);
            *b = high << 4 | low;
            all |= high | low;
        }
        self.0 = rest;
        (all < 16 && self.is_at_end()).then_some(hash)
    }

    // The flag, if its word is next.
    fn flag(&mut self, rec: &mut Record, f: u32, word: &str) -> bool {
        let found = self.word(word);
        rec[3] |= u8::from(found) << f;
        found
    }

    // The flag and the hash, if the word is next.
    fn hash_word(&mut self, rec: &mut Record, f: u32, word: &str, at: usize) -> Option<()> {
        if self.flag(rec, f, word) {
            rec[at..at + 20].copy_from_slice(&self.hash()?);
        }
        Some(())
    }

    // The number after a word that has to be next.
    fn number_word(&mut self, word: &str, most: u32) -> Option<u32> {
        if self.word(word) { self.number(most) } else { None }
    }

    fn mechanism(&mut self, rec: &mut Record) -> Option<()> {
        let mechanism = self.number_word(" mechanism", 0xffff)?;
        rec[24..26].copy_from_slice(&(mechanism as u16).to_be_bytes());
        Some(())
    }

    fn group(&mut self, rec: &mut Record) -> Option<()> {
        self.hash_word(rec, 0, " certifier", 4)?;
        if self.0.starts_with(b" ") {
            rec[3] |= 2;
            self.mechanism(rec)?;
        }
        Some(())
    }

    fn limit(&mut self, rec: &mut Record) -> Option<()> {
        let maximum = if self.word(" seconds") {
            rec[4] = 3;
            self.number(u32::MAX)?
        } else {
            rec[4] = 1;
            if self.word(" counter") {
                (rec[4], rec[5]) = (2, self.number(255)? as u8);
            }
            self.number_word(" uses", u32::MAX)?
        };
        rec[8..12].copy_from_slice(&maximum.to_be_bytes());
        Some(())
    }

    fn permissions(&mut self, rec: &mut Record) -> Option<()> {
        let bits = PERMISSION_NAMES.iter().enumerate().fold(0u16, |bits, (p, name)| bits | u16::from(self.word(name)) << p);
        rec[4..6].copy_from_slice(&bits.to_be_bytes());
        Some(())
    }

    fn make_blob(&mut self, rec: &mut Record) -> Option<()> {
        self.flag(rec, 0, " AllowKmOnly");
        self.flag(rec, 1, " AllowNonKm0");
        self.hash_word(rec, 2, " kmhash", 4)?;
        self.hash_word(rec, 3, " kthash", 24)?;
        if self.flag(rec, 4, " ktparams") {
            rec[45] = self.word(" AllowSoftSlots").into();
            rec[46] = self.number_word(" needed", 255)? as u8;
            rec[47] = self.number_word(" total", 255)? as u8;
            rec[48..52].copy_from_slice(&self.number_word(" seconds", u32::MAX)?.to_be_bytes());
        }
        self.flag(rec, 5, " AllowNullKmToken");
        self.flag(rec, 6, " blobfile");
        Some(())
    }

    fn make_archive_blob(&mut self, rec: &mut Record) -> Option<()> {
        self.hash_word(rec, 0, " kahash", 4)?;
        self.mechanism(rec)?;
        self.flag(rec, 6, " blobfile");
        Some(())
    }

    fn blobfile(&mut self, rec: &mut Record) -> Option<()> {
        if self.flag(rec, 0, " devices") {
            rec[4..8].copy_from_slice(&self.number(u32::MAX)?.to_be_bytes());
        }
        self.hash_word(rec, 1, " template", 8)
    }
}

/// The record of a text's first line, and the rest of the text. Whether the record is valid is for the reader of ACLs to say.
pub fn record(text: &[u8]) -> Option<(Record, &[u8])> {
    let (mut rec, mut words) = ([0; 64], Words(text));
    if words.word("MakeBlob") {
        rec[0] = 4;
        words.make_blob(&mut rec)?;
    } else if words.word("limit") {
        rec[0] = 2;
        words.limit(&mut rec)?;
    } else if words.word("OpPermissions") {
        rec[0] = 3;
        words.permissions(&mut rec)?;
    } else if words.word("MakeArchiveBlob") {
        rec[0] = 5;
        words.make_archive_blob(&mut rec)?;
    } else if words.word("group") {
        rec[0] = 1;
        words.group(&mut rec)?;
    } else if words.word("blobfile") {
        rec[0] = 15;
        words.blobfile(&mut rec)?;
    }
    // A line of none of these is not at its end, unless it is empty: then its kind is none.
    words.0.strip_prefix(b"\n").map(|rest| (rec, rest))
}
