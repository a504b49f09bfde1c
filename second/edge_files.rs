//! Files at the edges of their own rules: one thing too many, one out of place, one barely good or
//! barely bad. ACLs and requests have files of their own.

use crate::acl::Acl;
use crate::bundle::MOST_LISTED;
use crate::call::{Bytes, FileKind};
use crate::damage::split;
use crate::encode::{self, RecordBytes};
use crate::maker::{stock, Maker};
use crate::replace::{Hint, MOST_HINTS};

impl Maker {
    /// A file at an edge of its own rules.
    pub fn edge_file(&mut self, kind: FileKind, file: &mut Bytes) {
        match kind {
            FileKind::Request => self.edge_request(file),
            FileKind::Hints => self.edge_hints(file),
            FileKind::Run | FileKind::Requests => self.edge_run(file),
            FileKind::Bundle => self.edge_bundle(file),
            _ => *file = self.edge_acl(),
        }
    }

    /// An ACL or a bundle with one thing too many, or an ACL with an open archive action.
    pub fn one_too_many(&mut self, kind: FileKind, file: &mut Bytes) {
        match kind {
            FileKind::Acl | FileKind::NewAcl => {
                let mut acl = Acl {
                    groups: vec![self.group(0), self.group(1)],
                };
                if self.random.chance(30) {
                    self.open_archive(&mut acl.groups[0]);
                } else {
                    self.overfill(&mut acl);
                }
                *file = encode::acl(&acl);
            }
            FileKind::Bundle => {
                let mut records = split(file);
                self.list_keys(&mut records);
                *file = records.concat();
            }
            _ => {}
        }
    }

    /// One record of the run barely good or barely bad, or one that belongs to another file.
    fn edge_run(&mut self, file: &mut Bytes) {
        let mut records = split(file);
        let place = self.random.place(records.len() + 1);
        let record = match self.random.below(3) {
            0 => self.any_record(),
            _ => self.edge_request_record(),
        };
        records.insert(place, record);
        *file = records.concat();
    }

    fn edge_hints(&mut self, file: &mut Bytes) {
        let mut records = split(file);
        match self.random.below(6) {
            0 => records.clear(),
            1 | 2 => {
                while records.len() < MOST_HINTS + 1 {
                    let source = records.len() as u8;
                    records.push(encode::hint_record(&Hint {
                        source,
                        ..Hint::default()
                    }));
                }
                let most = MOST_HINTS;
                records.truncate(
                    self.random
                        .pick(&[17, most - 1, most, most, most + 1, most + 1]),
                );
            }
            _ if !records.is_empty() => {
                let place = self.random.place(records.len());
                let byte = self.random.pick(&[0, 1, 2, 3, 5, 6, 7, 16, 17, 40, 63]);
                records[place][byte] ^= self.random.pick(&[1, 0x80]);
            }
            _ => {}
        }
        *file = records.concat();
    }

    fn edge_bundle(&mut self, file: &mut Bytes) {
        let mut records = split(file);
        if records.is_empty() {
            return;
        }
        let policy = records.len() - 1;
        match self.random.below(17) {
            0 | 1 => records[policy][4] = self.random.pick(&[0, 4, 5, 6, 7, 128, 255]),
            2 => records[policy][5] = self.random.pick(&[0, 1, 2, 3, 255]),
            3 => records[policy][6] ^= self.random.pick(&[1, 2, 4, 8, 16, 128]),
            4 => records[policy][7] = self.random.pick(&[0, 1, 4, 5, 255]),
            5 => records.insert(policy, records[policy]),
            6 => {
                records.remove(policy);
            }
            7 => records.clear(),
            8 | 14 | 15 => self.list_keys(&mut records),
            9 => {
                let place = self.random.place(policy.max(1));
                records[place][4] = self.random.pick(&[0, 1, 6, 7, 13, 14, 15, 255]);
            }
            10 => {
                if let Some(record) = records.iter_mut().rfind(|record| record[0] == 11) {
                    record[5] = self.random.pick(&[0, 1, 2, 2, 255]);
                }
            }
            11 => {
                let place = self.random.place(records.len());
                records.insert(place, records[place]);
            }
            12 | 13 => self.number_out_of_range(&mut records),
            _ => {
                // An unknown suite beside a malformed or missing record.
                records[policy][4] = self.random.pick(&[0, 6, 255]);
                if self.random.chance(50) {
                    records.swap(0, policy);
                }
            }
        }
        *file = records.concat();
    }

    /// A field 0 or 15 or a signature 0 or 7, each in its place by order.
    fn number_out_of_range(&mut self, records: &mut Vec<RecordBytes>) {
        let after = |records: &[RecordBytes], kind: u8| {
            records
                .iter()
                .take_while(|record| record[0] <= kind)
                .count()
        };
        let (place, record) = match self.random.below(4) {
            0 => (0, encode::fact_record(0, &stock(b'f', 0))),
            1 => (
                after(records, 10),
                encode::fact_record(15, &stock(b'f', 15)),
            ),
            2 => (after(records, 10), encode::signature_record(0, 1)),
            _ => (after(records, 11), encode::signature_record(7, 1)),
        };
        records.insert(place, record);
    }

    /// 32 or 33 listed keys, the last of them now and then malformed too.
    fn list_keys(&mut self, records: &mut Vec<RecordBytes>) {
        let is_listed = |record: &RecordBytes| record[0] == 10 && record[4] == 14;
        let number = self
            .random
            .pick(&[MOST_LISTED, MOST_LISTED + 1, MOST_LISTED + 1]);
        let mut end = records.iter().take_while(|record| record[0] <= 10).count();
        while records.iter().filter(|record| is_listed(record)).count() < number {
            records.insert(end, encode::fact_record(14, &self.module_key()));
            end += 1;
        }
        if end > 0 && self.random.chance(35) {
            records[end - 1][self.random.pick(&[1, 3, 5, 7, 28, 63])] = 1;
        }
        if !records.is_empty() && self.random.chance(80) {
            // Room for all of them within the greatest length.
            records.remove(0);
        }
    }
}
