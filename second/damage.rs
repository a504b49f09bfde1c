//! Damages files: single bits and bytes, records moved about, wrong lengths.

use crate::acl::{Limit, MOST_ACL_RECORDS};
use crate::batch::MOST_BATCH;
use crate::bundle::MOST_BUNDLE_RECORDS;
use crate::call::{Argument, Bytes, Call, FileKind};
use crate::day::MOST_REQUESTS;
use crate::encode::{self, RecordBytes};
use crate::maker::{stock, Maker};
use crate::record::RECORD_LENGTH;
use crate::replace::{Hint, MOST_HINTS};
use crate::request::{Certificate, Delegation, Request, MOST_REQUEST_RECORDS};
use crate::script::LONGEST_BYTES;

impl FileKind {
    /// How often a file of this kind is the damaged one; what is not made of records never is.
    fn weight(self) -> u64 {
        match self {
            FileKind::Km0 => 1,
            FileKind::Acl | FileKind::Request | FileKind::Hints | FileKind::Run => 8,
            FileKind::Requests => 8,
            FileKind::NewAcl | FileKind::Bundle => 14,
            FileKind::Hashes | FileKind::Text | FileKind::Buffer => 0,
            FileKind::Row | FileKind::Form => 0,
        }
    }
}

/// For a record of that kind: bytes at the ends of its optional parts and just outside its parts,
/// and flags around the last one it knows.
fn edges_of(kind: u8) -> (&'static [usize], &'static [u32]) {
    match kind {
        1 => (&[1, 4, 23, 24, 25, 26, 63], &[0, 1, 2]),
        2 => (&[1, 5, 6, 7, 12, 63], &[0]),
        3 => (&[1, 6, 7, 63], &[0]),
        4 => (
            &[1, 4, 23, 24, 43, 44, 47, 51, 52, 63],
            &[0, 1, 2, 3, 4, 5, 6, 7, 7],
        ),
        5 => (&[1, 4, 23, 26, 63], &[0, 1, 6]),
        6 => (&[1, 5, 52, 55], &[0]),
        7 => (&[1, 24, 43, 51, 52, 55], &[0, 1, 6]),
        8 => (&[1, 26, 55], &[0, 6, 7]),
        9 => (&[1, 26, 55, 56, 63], &[0]),
        10 => (&[1, 5, 7, 28, 63], &[0]),
        11 => (&[1, 6, 8, 63], &[0]),
        12 => (&[1, 8, 63], &[0]),
        14 => (&[1, 46, 55, 56, 63], &[0]),
        15 => (&[1, 4, 7, 8, 27, 28, 28, 63], &[0, 1, 2]),
        _ => (&[1, 5, 7, 16, 63], &[0]),
    }
}

impl Maker {
    /// Damages one file of a call; now and then two, to see which is looked at first.
    pub fn damage_call(&mut self, call: &mut Call) {
        let mut files = files_of(call);
        match self.random.weighted(&[68, 7, 25]) {
            0 => self.damage_one(&mut files),
            1 => {
                self.damage_one(&mut files);
                self.damage_one(&mut files);
            }
            _ => self.damage_two(&mut files),
        }
    }

    fn damage_one(&mut self, files: &mut [(FileKind, &mut Bytes)]) {
        let weights: Vec<u64> = files.iter().map(|(kind, _)| kind.weight()).collect();
        let (kind, file) = &mut files[self.random.weighted(&weights)];
        if matches!(kind, FileKind::Acl | FileKind::NewAcl) && self.random.chance(20) {
            self.open_an_archive(file);
        } else {
            self.damage_file(*kind, file);
        }
        // A second damage must not make a call that no script can hold.
        file.truncate(LONGEST_BYTES);
    }

    /// An ACL whose last group has an archive action without a key, mostly as an open group.
    fn open_an_archive(&mut self, file: &mut Bytes) {
        let mut acl = self.acl();
        acl.groups.truncate(3);
        if let Some(group) = acl.groups.last_mut() {
            self.open_archive(group);
        }
        *file = encode::acl(&acl);
    }

    /// Two files bad at once: of a wrong length, malformed, or with one thing too many.
    fn damage_two(&mut self, files: &mut [(FileKind, &mut Bytes)]) {
        let with_km0 = self.random.chance(15);
        let mut places: Vec<usize> = (0..files.len()).collect();
        places.retain(|&place| with_km0 || files[place].0 != FileKind::Km0);
        self.random.shuffle(&mut places);
        for place in places.into_iter().take(2) {
            let (kind, file) = &mut files[place];
            match (*kind, self.random.weighted(&[15, 40, 45])) {
                (FileKind::Km0, _) | (_, 0) => file.push(0),
                (FileKind::Acl | FileKind::NewAcl | FileKind::Bundle, 2) => {
                    self.one_too_many(*kind, file)
                }
                _ => self.damage_a_zero(file),
            }
        }
    }

    /// Byte 1 of any record is zero.
    fn damage_a_zero(&mut self, file: &mut Bytes) {
        if file.len() < RECORD_LENGTH {
            return;
        }
        let start = self.random.place(file.len() / RECORD_LENGTH) * RECORD_LENGTH;
        file[start + 1] = 1;
    }

    fn damage_file(&mut self, kind: FileKind, file: &mut Bytes) {
        if kind == FileKind::Km0 {
            let length = self.random.pick(&[0, 19, 19, 21, 21, 40]);
            file.resize(length, 0);
            return;
        }
        match self.random.weighted(&[24, 13, 7, 6, 50]) {
            0 => self.damage_part_end(file),
            1 => self.damage_record(file),
            2 => self.move_records(file),
            3 => self.damage_length(kind, file),
            _ => self.edge_file(kind, file),
        }
    }

    /// One record changed at an edge of its parts or flags, or turned into a neighbouring kind.
    fn damage_part_end(&mut self, file: &mut Bytes) {
        if file.len() < RECORD_LENGTH {
            return;
        }
        let last = file.len() / RECORD_LENGTH - 1;
        let any = self.random.place(last + 1);
        let alike = self.record_of_some_kind(file);
        let choices = [(35, any), (35, alike), (15, 0), (15, last)];
        let start = self.random.pick_weighted(&choices) * RECORD_LENGTH;
        let record = &mut file[start..start + RECORD_LENGTH];
        let (bytes, flags) = edges_of(record[0]);
        match self.random.weighted(&[50, 40, 10]) {
            0 => record[self.random.pick(bytes)] ^= self.random.pick(&[1, 0x80]),
            1 => record[3] ^= 1 << self.random.pick(flags),
            _ => {
                record[0] = self
                    .random
                    .pick(&[record[0].wrapping_sub(1), record[0].wrapping_add(1)])
            }
        }
    }

    /// The place of a record of any kind that the file has, the rare ones as likely as the others.
    fn record_of_some_kind(&mut self, file: &[u8]) -> usize {
        let kinds: Vec<u8> = split(file).iter().map(|record| record[0]).collect();
        let mut different = kinds.clone();
        different.sort_unstable();
        different.dedup();
        let kind = self.random.pick(&different);
        let places: Vec<usize> = (0..kinds.len())
            .filter(|place| kinds[*place] == kind)
            .collect();
        self.random.pick(&places)
    }

    /// One bit or one byte of one record, anywhere or where it matters most.
    fn damage_record(&mut self, file: &mut Bytes) {
        if file.len() < RECORD_LENGTH {
            return;
        }
        let start = self.random.place(file.len() / RECORD_LENGTH) * RECORD_LENGTH;
        let place = start + self.random.place(RECORD_LENGTH);
        match self.random.weighted(&[45, 12, 10, 5, 7, 10, 11]) {
            0 => file[place] ^= 1 << self.random.below(8),
            1 => file[place] = self.random.next() as u8,
            2 => file[start] = self.random.below(16) as u8,
            3 => file[start + 1] = self.random.between(1, 255) as u8,
            4 => file[start + 2] ^= 1 << self.random.below(8),
            5 => file[start + 3] ^= 1 << self.random.below(8),
            _ => file[start + 4] = self.random.pick(&[0, 1, 2, 3, 4, 6, 7, 14, 15, 16, 255]),
        }
    }

    /// A record twice, dropped, in its neighbour's place, or a record of another file between them.
    fn move_records(&mut self, file: &mut Bytes) {
        let mut records = split(file);
        let number = records.len();
        match self.random.below(4) {
            0 if number > 0 => {
                let place = self.random.place(number);
                records.insert(place, records[place]);
            }
            1 if number > 0 => {
                records.remove(self.random.place(number));
            }
            2 if number > 1 => {
                let place = self.random.place(number - 1);
                records.swap(place, place + 1);
            }
            _ => {
                let foreign = self.any_record();
                records.insert(self.random.place(number + 1), foreign);
            }
        }
        *file = records.concat();
    }

    /// A well-formed record of any kind.
    pub fn any_record(&mut self) -> RecordBytes {
        match self.random.below(10) {
            0 => encode::group_record(&self.group(0)),
            1 => encode::limit_record(&Limit {
                sort: self.sort(),
                maximum: 3,
            }),
            2 | 3 => encode::action_record(&self.action()),
            4 => encode::request_record(&Request {
                asked: self.anything(),
                time: self.ledger.last_time,
                blobfile: None,
            }),
            5 => encode::certificate_record(&Certificate {
                key: self.certifier(),
                mechanism: self.mechanism(),
            }),
            6 => encode::delegation_record(&Delegation {
                from: self.certifier(),
                to: self.certifier(),
                mask: 0xffff,
            }),
            7 => encode::blobfile_record(&self.blobfile()),
            8 => {
                let field = self.random.between(1, 14) as u8;
                encode::fact_record(field, &stock(b'f', field))
            }
            _ => encode::hint_record(&Hint {
                source: self.random.below(3) as u8,
                ..Hint::default()
            }),
        }
    }

    fn damage_length(&mut self, kind: FileKind, file: &mut Bytes) {
        let greatest = RECORD_LENGTH
            * match kind {
                FileKind::Request => MOST_REQUEST_RECORDS,
                FileKind::Hints => MOST_HINTS,
                FileKind::Run => MOST_BATCH,
                FileKind::Requests => MOST_REQUESTS,
                FileKind::Bundle => MOST_BUNDLE_RECORDS,
                _ => MOST_ACL_RECORDS,
            };
        let length = file.len();
        let wrong = match self.random.weighted(&[8, 8, 6, 6, 6, 3]) {
            0 => length + 1,
            1 => length.saturating_sub(1),
            2 => length + 63,
            3 => greatest + RECORD_LENGTH,
            4 => greatest + self.random.pick(&[1, 64, 128]),
            _ => greatest,
        };
        let filling = if length >= RECORD_LENGTH {
            file[length - RECORD_LENGTH..].to_vec()
        } else {
            vec![0; 64]
        };
        while file.len() < wrong {
            let missing = wrong - file.len();
            file.extend(&filling[..missing.min(RECORD_LENGTH)]);
        }
        file.truncate(wrong);
        if self.random.once_in(60) {
            file.resize(LONGEST_BYTES, 0);
        }
    }
}

/// The files of records that a call lends, and its KM0, each with its kind.
pub fn files_of(call: &mut Call) -> Vec<(FileKind, &mut Bytes)> {
    let file = |argument| match argument {
        Argument::Bytes(kind, bytes) if kind.weight() > 0 => Some((kind, bytes)),
        _ => None,
    };
    call.arguments().into_iter().filter_map(file).collect()
}

/// The whole records of a file; a rest at its end is left out.
pub fn split(file: &[u8]) -> Vec<RecordBytes> {
    file.chunks_exact(RECORD_LENGTH)
        .map(|chunk| {
            let mut record = [0; RECORD_LENGTH];
            record.copy_from_slice(chunk);
            record
        })
        .collect()
}
