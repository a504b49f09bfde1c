//! Records of 64 bytes: how a file is cut into them and how their parts are read.

/// "Files are records of 64 bytes, no header."
pub const RECORD_LENGTH: usize = 64;

/// Every hash has twenty bytes.
pub type Hash = [u8; 20];

/// The refusals of document 01 and of document 02's requests.
#[derive(Clone, Copy, Debug, PartialEq, Eq)]
pub enum Refusal {
    Length,
    Malformed,
    TooMany,
    TooEarly,
    NotAdmitted,
    /// "Refusal 6 shall carry the lowest group that admits; refusal 7 the lowest that admits and is
    /// certified."
    NotCertified {
        nearest: usize,
    },
    Spent {
        nearest: usize,
    },
    NotNarrower,
    ShortBuffer,
    NoSuchNumber,
    NoSuchSuite,
    OpenArchive,
    NoSuchSlot,
    /// A prepared form that differs from the one made of the lent ACL.
    OtherForm,
    /// The first line of a text, from 1, that is no line of a listing.
    NotALine {
        line: usize,
    },
}

impl Refusal {
    pub fn number(self) -> u8 {
        match self {
            Refusal::Length => 1,
            Refusal::Malformed => 2,
            Refusal::TooMany => 3,
            Refusal::TooEarly => 4,
            Refusal::NotAdmitted => 5,
            Refusal::NotCertified { .. } => 6,
            Refusal::Spent { .. } => 7,
            Refusal::NotNarrower => 8,
            Refusal::ShortBuffer => 9,
            Refusal::NoSuchNumber => 10,
            Refusal::NoSuchSuite => 11,
            Refusal::OpenArchive => 12,
            Refusal::NoSuchSlot => 13,
            Refusal::OtherForm => 14,
            Refusal::NotALine { .. } => 15,
        }
    }

    /// What is told beside the number: a group or a line.
    pub fn beside(self) -> Option<usize> {
        match self {
            Refusal::NotCertified { nearest } | Refusal::Spent { nearest } => Some(nearest),
            Refusal::NotALine { line } => Some(line),
            _ => None,
        }
    }
}

/// Bytes in lower-case hexadecimal digits.
pub fn hex(bytes: &[u8]) -> String {
    const DIGITS: &[u8; 16] = b"0123456789abcdef";
    let digits = bytes.iter().flat_map(|byte| [byte >> 4, byte & 15]);
    digits
        .map(|digit| char::from(DIGITS[usize::from(digit)]))
        .collect()
}

/// The first and the last byte of a part of a record, both counted in, as the document writes
/// "4-23".
pub type Part = (usize, usize);

/// A part that holds no byte.
const NO_PART: Part = (1, 0);

/// An optional part: listed only where its flag is set, so that an absent one must be zero.
pub fn part_if(present: bool, part: Part) -> Part {
    if present {
        part
    } else {
        NO_PART
    }
}

/// One record of a file.
#[derive(Clone, Copy)]
pub struct Record<'a>(&'a [u8]);

impl<'a> Record<'a> {
    pub fn of(bytes: &'a [u8; RECORD_LENGTH]) -> Record<'a> {
        Record(bytes)
    }

    pub fn byte(self, place: usize) -> u8 {
        self.0[place]
    }

    pub fn kind(self) -> u8 {
        self.byte(0)
    }

    /// "Numbers are big-endian."
    fn number(self, place: usize, length: usize) -> u64 {
        self.0[place..place + length]
            .iter()
            .fold(0, |sum, &byte| sum * 256 + u64::from(byte))
    }

    pub fn number16(self, place: usize) -> u16 {
        self.number(place, 2) as u16
    }

    pub fn number32(self, place: usize) -> u32 {
        self.number(place, 4) as u32
    }

    pub fn number64(self, place: usize) -> u64 {
        self.number(place, 8)
    }

    pub fn hash(self, place: usize) -> Hash {
        let mut hash = [0; 20];
        hash.copy_from_slice(&self.0[place..place + 20]);
        hash
    }

    /// "Bytes 2-3 flags": flag f is bit f of that number.
    pub fn flag(self, number: u32) -> bool {
        self.number16(2) >> number & 1 == 1
    }

    /// A hash that is there only if its flag is set.
    pub fn hash_if(self, flag: u32, place: usize) -> Option<Hash> {
        self.flag(flag).then(|| self.hash(place))
    }

    /// "Byte 1 zero [...] Unlisted bytes, unlisted flag bits and absent optional fields are zero."
    pub fn check_zeros(self, listed_flags: u16, listed: &[Part]) -> Result<(), Refusal> {
        let is_listed = |place: usize| {
            listed
                .iter()
                .any(|&(first, last)| first <= place && place <= last)
        };
        let flags_good = self.number16(2) & !listed_flags == 0;
        let bytes_good = (4..RECORD_LENGTH).all(|place| is_listed(place) || self.byte(place) == 0);
        malformed_unless(self.byte(1) == 0 && flags_good && bytes_good)
    }
}

/// Refusal 2 where a rule about a record does not hold.
pub fn malformed_unless(good: bool) -> Result<(), Refusal> {
    if good {
        Ok(())
    } else {
        Err(Refusal::Malformed)
    }
}

/// Refusal 3: "one group, limit, action, certificate or field 14 too many", or one delegation. It comes after the record's own 2.
pub fn push_up_to<T>(list: &mut Vec<T>, item: T, most: usize) -> Result<(), Refusal> {
    if list.len() == most {
        return Err(Refusal::TooMany);
    }
    list.push(item);
    Ok(())
}

/// Refusal 1: "a file not whole records or over its greatest length".
pub fn check_length(file: &[u8], most_records: usize) -> Result<(), Refusal> {
    if file.len() % RECORD_LENGTH == 0 && file.len() <= most_records * RECORD_LENGTH {
        Ok(())
    } else {
        Err(Refusal::Length)
    }
}

/// Writes a result at the front of a lent buffer and replies with its length; "bytes past it stay",
/// and a buffer too short for it (9) stays untouched.
pub fn write_front(buffer: &mut [u8], result: &[u8]) -> Result<usize, Refusal> {
    let front = buffer.get_mut(..result.len()).ok_or(Refusal::ShortBuffer)?;
    front.copy_from_slice(result);
    Ok(result.len())
}

/// The records of a file whose length has been checked.
pub fn records(file: &[u8]) -> impl Iterator<Item = Record<'_>> {
    file.chunks_exact(RECORD_LENGTH).map(Record)
}

#[cfg(test)]
mod tests {
    use super::*;

    #[test]
    fn numbers_and_flags_are_big_endian() {
        let mut bytes = [0; 64];
        bytes[2..4].copy_from_slice(&[0x80, 0x02]);
        bytes[8..12].copy_from_slice(&[1, 2, 3, 4]);
        let record = Record(&bytes);
        assert!(record.flag(15) && record.flag(1));
        assert!(!record.flag(0) && !record.flag(9));
        assert_eq!(record.number32(8), 0x0102_0304);
    }

    #[test]
    fn a_byte_outside_the_listed_parts_is_refused() {
        for place in 1..RECORD_LENGTH {
            let mut bytes = [0; 64];
            bytes[place] = 1;
            let good = Record(&bytes).check_zeros(0, &[(4, 23), (30, 30)]).is_ok();
            assert_eq!(
                good,
                (4..24).contains(&place) || place == 30,
                "byte {place}"
            );
        }
    }

    #[test]
    fn lengths() {
        assert!(check_length(&[], 0).is_ok());
        assert!(check_length(&[0; 128], 2).is_ok());
        assert!(check_length(&[0; 128], 1).is_err());
        assert!(check_length(&[0; 127], 2).is_err());
    }
}
