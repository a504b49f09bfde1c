//! Makes runs of requests over decoded certificates.

use crate::acl::Acl;
use crate::batch::{ANSWER_LENGTH, ROW_ENTRY_LENGTH};
use crate::call::{Batch, Bytes};
use crate::encode;
use crate::gate::grant;
use crate::maker::Maker;
use crate::prepare::{form_of, Form, SETS};
use crate::record::RECORD_LENGTH;
use crate::request::{Certificate, Presented, Request, MOST_CERTIFICATES};

impl Maker {
    /// A run on that ACL, of so many requests at most where it is not meant to be too long.
    pub fn run(&mut self, acl: &Acl, most: usize) -> Batch {
        let row = self.row(acl);
        let few = self.random.between(2, 12) as usize;
        let number = self.random.pick_weighted(&[
            (60, 0),
            (180, 1),
            (660, few),
            (15, most - 1),
            (45, most),
            (40, most + 1),
        ]);
        let presented = Presented {
            certificates: row.clone(),
            ..Presented::default()
        };
        let run = self.run_records(acl, &presented, number);
        let mut batch = Batch {
            km0: self.km0.to_vec(),
            acl: encode::acl(acl),
            row: row.iter().flat_map(row_entry).collect(),
            buffer: self.buffer_near(run.len() / RECORD_LENGTH * ANSWER_LENGTH),
            run,
        };
        if self.random.chance(8) {
            for _ in 0..2 {
                self.refuse_whole(&mut batch);
            }
        }
        batch
    }

    /// One thing for which a run is refused whole; two of them show which is looked at first.
    fn refuse_whole(&mut self, batch: &mut Batch) {
        match self.random.weighted(&[1, 1, 3, 3, 3, 3]) {
            0 => batch.run.push(0),
            1 => batch.km0.push(0),
            2 => batch
                .row
                .resize((MOST_CERTIFICATES + 1) * ROW_ENTRY_LENGTH, 1),
            3 => {
                let entry = batch.row.len().min(ROW_ENTRY_LENGTH);
                batch.row[entry.saturating_sub(2)..entry].fill(0);
            }
            4 => batch.acl = self.edge_acl(),
            _ => {
                let exact = batch.run.len() / RECORD_LENGTH * ANSWER_LENGTH;
                batch.buffer.truncate(exact.saturating_sub(1));
            }
        }
    }

    /// The form of that ACL, mostly; else one bit or one set off, or the form of another.
    pub fn form_for(&mut self, acl: &Acl) -> Form {
        let mut form = form_of(acl);
        let any = self.random.place(SETS);
        let set = self.random.pick(&[any, any, any, 0, SETS - 1]);
        let last = acl.groups.len().max(1) as u64;
        match self.random.weighted(&[76, 9, 7, 4, 2, 2]) {
            0 => {}
            1 => form[set] ^= 1 << self.random.below(last),
            2 => form[set] ^= 1 << self.random.below(64),
            3 => form.swap(set, (set + 1) % SETS),
            4 => form = form_of(&self.acl()),
            _ => form = [0; SETS],
        }
        form
    }

    /// Request records one after the other, each made for the ledger as the one before leaves it.
    fn run_records(&mut self, acl: &Acl, presented: &Presented, number: usize) -> Bytes {
        let mut records = Bytes::new();
        // Long runs repeat what a few requests ask.
        let mut made: Vec<Request> = Vec::new();
        for _ in 0..number {
            if made.len() < 20 {
                let mut request = self.asking(acl).request;
                if self.random.chance(85) {
                    request.blobfile = None;
                }
                made.push(request);
            } else {
                let again = self.random.pick(&made);
                let time = self.time(acl);
                made.push(Request { time, ..again });
            }
            let Some(request) = made.last() else { continue };
            if let Ok((_, charged)) = grant(&self.ledger, &self.km0, acl, request, presented) {
                self.ledger = charged;
            }
            records.extend(encode::request_record(request));
            if self.random.chance(4) {
                let last = records.len() - RECORD_LENGTH;
                let edge = self.edge_request_record();
                records[last..].copy_from_slice(&edge);
            }
        }
        records
    }

    /// The certificates of some of the ACL's groups, mostly; now and then one too many, or one
    /// without a mechanism.
    fn row(&mut self, acl: &Acl) -> Vec<Certificate> {
        let mut row = Vec::new();
        for _ in 0..self.random.below(3) {
            row.extend(self.asking(acl).presented.certificates);
        }
        for group in &acl.groups {
            if let (Some(key), true) = (group.certifier, self.random.chance(50)) {
                let mechanism = group.mechanism.unwrap_or(1);
                row.push(Certificate { key, mechanism });
            }
        }
        row.truncate(MOST_CERTIFICATES);
        let most = MOST_CERTIFICATES;
        let number = self
            .random
            .pick_weighted(&[(90, row.len()), (4, most), (6, most + 1)]);
        while row.len() < number {
            row.push(Certificate {
                key: self.certifier(),
                mechanism: self.mechanism(),
            });
        }
        if !row.is_empty() && self.random.chance(6) {
            let place = self.random.place(row.len());
            row[place].mechanism = 0;
        }
        row
    }
}

fn row_entry(certificate: &Certificate) -> Vec<u8> {
    [&certificate.key[..], &certificate.mechanism.to_be_bytes()].concat()
}
