//! Request files at the edges of their rules.

use crate::blobfile::BlobFile;
use crate::call::Bytes;
use crate::damage::split;
use crate::encode::{self, RecordBytes};
use crate::maker::Maker;
use crate::request::{Asked, Certificate, Delegation, Request, Token};

impl Maker {
    pub fn edge_request(&mut self, file: &mut Bytes) {
        let mut records = split(file);
        let certificate = Certificate {
            key: self.certifier(),
            mechanism: self.mechanism(),
        };
        match self.random.below(20) {
            0 => records.clear(),
            1 if !records.is_empty() => records[0] = self.edge_request_record(),
            2 => records.insert(0, encode::certificate_record(&certificate)),
            3 => records.insert(records.len().min(1), self.edge_request_record()),
            4 | 10 => self.fill_request(&mut records),
            11 | 12 => self.edge_delegations(&mut records),
            14..=17 => self.edge_asked_blobfile(&mut records),
            13 => records.push(encode::certificate_record(&certificate)),
            5 => records.push(encode::certificate_record(&Certificate {
                mechanism: 0,
                ..certificate
            })),
            6 => {
                let mut bad = encode::certificate_record(&certificate);
                bad[self.random.pick(&[3, 26, 40, 55, 56, 63])] = 1;
                records.push(bad);
            }
            7 if !records.is_empty() => {
                // A direct blob request with token bytes in it.
                let asked = Asked::Blob {
                    module_key: self.module_key(),
                    token: None,
                };
                records[0] = encode::request_record(&Request {
                    asked,
                    time: self.ledger.last_time,
                    blobfile: None,
                });
                records[0][self.random.between(24, 55) as usize] = 1;
            }
            _ if !records.is_empty() => records[0] = self.edge_request_record(),
            _ => {}
        }
        *file = records.concat();
    }

    /// So many certificates and delegations as may be, or one of them too many.
    fn fill_request(&mut self, records: &mut Vec<RecordBytes>) {
        let certificate = encode::certificate_record(&Certificate {
            key: self.certifier(),
            mechanism: self.mechanism(),
        });
        let delegation = self.some_delegation();
        let certificates = self.random.pick(&[0, 31, 32, 32, 33, 33]);
        let delegations = self.random.pick(&[0, 15, 16, 16, 17, 17]);
        if self.random.chance(50) {
            // With a kind 15 record there is room for all of them.
            let file = self.asked_within(BlobFile::default());
            let request = Request {
                asked: Asked::Recovery {
                    key: self.recovery_key(),
                    mechanism: self.mechanism(),
                },
                time: self.ledger.last_time,
                blobfile: Some(file),
            };
            *records = vec![
                encode::request_record(&request),
                encode::blobfile_record(&file),
            ];
        }
        let stored = records.len() > 1 && records[1][0] == 15;
        records.truncate(1 + usize::from(stored));
        records.extend(vec![certificate; certificates]);
        records.extend(vec![delegation; delegations]);
        // The last of them malformed too: 2 before 3.
        if records.len() > 1 && self.random.chance(25) {
            let last = records.len() - 1;
            records[last][self.random.pick(&[1, 3, 50, 63])] = 1;
        }
    }

    /// A blob request with a kind 15 record that is barely good or barely bad, missing or out of
    /// place.
    fn edge_asked_blobfile(&mut self, records: &mut Vec<RecordBytes>) {
        let asked = loop {
            let asked = self.anything();
            if self.random.chance(4) || !matches!(asked, Asked::Use(_)) {
                break asked;
            }
        };
        let file = BlobFile {
            devices: self.random.pick(&[
                None,
                Some(0),
                Some(1),
                Some(4),
                Some(1 << 31),
                Some(3),
                Some(u32::MAX),
            ]),
            template: self.blobfile().template,
        };
        let mut first = encode::request_record(&Request {
            asked,
            time: self.ledger.last_time,
            blobfile: Some(file),
        });
        let mut second = encode::blobfile_record(&file);
        let rest: Vec<RecordBytes> = records.iter().skip(1).copied().collect();
        match self.random.below(8) {
            0 => first[3] ^= 1 << 6,
            1 => second[3] ^= self.random.pick(&[1, 2, 4]),
            2 => second[self.random.pick(&[1, 4, 7, 8, 28, 56, 63])] ^= 1,
            _ => {}
        }
        *records = match self.random.below(8) {
            0 => [vec![first], rest].concat(),
            1 => [vec![first], rest, vec![second]].concat(),
            2 => [vec![first, second, second], rest].concat(),
            3 => [vec![second, first], rest].concat(),
            _ => [vec![first, second], rest].concat(),
        };
    }

    fn some_delegation(&mut self) -> RecordBytes {
        encode::delegation_record(&Delegation {
            from: self.certifier(),
            to: self.certifier(),
            mask: self.random.next() as u16,
        })
    }

    /// A delegation malformed, before a certificate or in the request's place.
    fn edge_delegations(&mut self, records: &mut Vec<RecordBytes>) {
        let mut delegation = self.some_delegation();
        match self.random.below(8) {
            0..=2 => {
                let certificate = encode::certificate_record(&Certificate {
                    key: self.certifier(),
                    mechanism: self.mechanism(),
                });
                records.truncate(1);
                records.extend([delegation, certificate]);
            }
            3 => records.insert(0, delegation),
            4..=6 => {
                delegation[self.random.pick(&[1, 2, 3, 46, 46, 47, 55, 56, 63])] = 1;
                records.push(delegation);
            }
            _ => records.push(delegation),
        }
    }

    /// A request record barely good or barely bad.
    pub fn edge_request_record(&mut self) -> RecordBytes {
        let asked = match self.random.below(3) {
            0 => Asked::Use(
                self.random
                    .pick(&[0, 2, 4, 12, 14, 15, 16, 16, 17, 20, 32, 255]),
            ),
            1 => Asked::Recovery {
                key: self.recovery_key(),
                mechanism: self.random.pick(&[0, 1, 256]),
            },
            _ => {
                let parameters = self.edge_parameters();
                let token = Some(Token {
                    hash: self.token_hash(),
                    parameters,
                });
                Asked::Blob {
                    module_key: self.module_key(),
                    token,
                }
            }
        };
        let mut record = encode::request_record(&Request {
            asked,
            time: self.ledger.last_time,
            blobfile: None,
        });
        // A flag that this kind may not know, or that says something else.
        if self.random.chance(20) {
            record[3] ^= 1 << self.random.below(8);
        }
        record
    }
}
