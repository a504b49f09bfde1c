//! The line of a record of an ACL: its words, to a buffer or for their length alone.

use super::record::*;

/// The permissions' names, each at its bit, with the space before it.
pub const PERMISSION_NAMES: [&str; 16] = [
    " DuplicateHandle", " GetAppData", " ReduceACL", " GetACL", " Sign", " Verify", " SignModuleCert", " UseAsCertificate",
    " Encrypt", " Decrypt", " ExportAsPlain", " SetAppData", " ExpandACL", " UseAsBlobKey", " UseAsKM", " UseAsLoaderKey",
];

/// Where the words of a line go.
pub trait Out {
    fn text(&mut self, text: &str);
    fn number(&mut self, n: u32);
    fn hash(&mut self, h: &Hash);
}

/// Counts the bytes.
pub struct Length(pub usize);

impl Out for Length {
    fn text(&mut self, text: &str) {
        self.0 += text.len();
    }

    fn number(&mut self, n: u32) {
        self.0 += n.checked_ilog10().unwrap_or(0) as usize + 1;
    }

    fn hash(&mut self, _: &Hash) {
        self.0 += 40;
    }
}

/// Writes to the front of a buffer that is long enough.
pub struct Front<'a>(pub &'a mut [u8]);

impl<'a> Front<'a> {
    fn next(&mut self, n: usize) -> &'a mut [u8] {
        let (next, rest) = std::mem::take(&mut self.0).split_at_mut(n);
        self.0 = rest;
        next
    }
}

// Each byte as two digits.
static DIGITS: [[u8; 2]; 256] = {
    let mut digits = [[0; 2]; 256];
    let mut b = 0;
    while b < 256 {
        digits[b] = [b"0123456789abcdef"[b / 16], b"0123456789abcdef"[b % 16]];
        b += 1;
    }
    digits
};

impl Out for Front<'_> {
    fn text(&mut self, text: &str) {
        self.next(text.len()).copy_from_slice(text.as_bytes());
    }

    fn number(&mut self, mut n: u32) {
        let mut digits = [b'0'; 10];
        let mut at = digits.len();
        loop {
            at -= 1;
            digits[at] += (n % 10) as u8;
            n /= 10;
            if n == 0 {
                break;
            }
        }
        self.next(digits.len() - at).copy_from_slice(&digits[at..]);
    }

    fn hash(&mut self, h: &Hash) {
        let (pairs, _) = self.next(40).as_chunks_mut();
        for (pair, b) in pairs.iter_mut().zip(h) {
            *pair = DIGITS[usize::from(*b)];
        }
    }
}

fn flagged(out: &mut impl Out, rec: &Record, f: u32, word: &str) {
    if flag(rec, f) {
        out.text(word);
    }
}

fn hash_word(out: &mut impl Out, rec: &Record, f: u32, word: &str, at: usize) {
    if flag(rec, f) {
        out.text(word);
        out.hash(hash(rec, at));
    }
}

fn number_word(out: &mut impl Out, word: &str, n: u32) {
    out.text(word);
    out.number(n);
}

fn limit(out: &mut impl Out, rec: &Record) {
    out.text("limit");
    if rec[4] == 2 {
        number_word(out, " counter ", rec[5].into());
    }
    number_word(out, if rec[4] == 3 { " seconds " } else { " uses " }, be32(rec, 8));
}

fn permissions(out: &mut impl Out, rec: &Record) {
    out.text("OpPermissions");
    for permission in members(be16(rec, 4).into()) {
        out.text(PERMISSION_NAMES[permission]);
    }
}

fn make_blob(out: &mut impl Out, rec: &Record) {
    out.text("MakeBlob");
    flagged(out, rec, 0, " AllowKmOnly");
    flagged(out, rec, 1, " AllowNonKm0");
    hash_word(out, rec, 2, " kmhash ", 4);
    hash_word(out, rec, 3, " kthash ", 24);
    if flag(rec, 4) {
        let token = parameters(rec);
        out.text(if token.flags == 1 { " ktparams AllowSoftSlots" } else { " ktparams" });
        number_word(out, " needed ", token.needed.into());
        number_word(out, " total ", token.total.into());
        number_word(out, " seconds ", token.time);
    }
    flagged(out, rec, 5, " AllowNullKmToken");
    flagged(out, rec, 6, " blobfile");
}

/// The line of a record of an ACL without fault, its end included.
pub fn line(out: &mut impl Out, rec: &Record) {
    match rec[0] {
        1 => {
            out.text("group");
            hash_word(out, rec, 0, " certifier ", 4);
            if flag(rec, 1) {
                number_word(out, " mechanism ", be16(rec, 24).into());
            }
        }
        2 => limit(out, rec),
        3 => permissions(out, rec),
        4 => make_blob(out, rec),
        5 => {
            out.text("MakeArchiveBlob");
            hash_word(out, rec, 0, " kahash ", 4);
            number_word(out, " mechanism ", be16(rec, 24).into());
            flagged(out, rec, 6, " blobfile");
        }
        _ => {
            out.text("blobfile");
            if flag(rec, 0) {
                number_word(out, " devices ", be32(rec, 4));
            }
            hash_word(out, rec, 1, " template ", 8);
        }
    }
    out.text("\n");
}
