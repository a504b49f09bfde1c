//! What a request asks for, and whether an action admits it.

use super::acl::{Action, Outline, Taker};
use super::record::*;

// The null module key.
const NULL_KEY: Hash = [1, 0, 0, 0, 0, 0, 0, 0, 0, 0, 0, 0, 0, 0, 0, 0, 0, 0, 0, 0];

/// What the first records of a request ask for, whether or not they are well formed.
#[derive(Clone, Copy)]
pub enum Asked<'a> {
    Nothing,
    /// A use, by the bit of its permission.
    Use(u16),
    /// A blob, by the request record and its record of kind 15, if it has one.
    Blob(&'a Record, Option<&'a Record>),
}

impl<'a> Asked<'a> {
    pub fn of(records: &'a [Record]) -> Asked<'a> {
        match records.first() {
            Some(rec) if rec[0] == 6 => Asked::Use(1 << (rec[4] % 16)),
            Some(rec) => Asked::Blob(rec, records.get(1).filter(|_| flag(rec, 6))),
            None => Asked::Nothing,
        }
    }

    fn admitted_by_permissions(self, rec: &Record) -> bool {
        matches!(self, Asked::Use(bit) if be16(rec, 4) & bit != 0)
    }

    /// Whether an action of any kind admits this.
    pub fn admitted_by(self, km0: &Hash, act: Action) -> bool {
        let Asked::Blob(rec, blobfile) = self else { return act.record[0] == 3 && self.admitted_by_permissions(act.record) };
        let admits = match (rec[0], act.record[0]) {
            (7, 4) => admits_blob(km0, act.record, rec),
            (8, 5) => admits_archive(act.record, rec),
            _ => false,
        };
        admits && admits_blobfile(act.blobfile, blobfile)
    }
}

// The module key of a blob: kmhash if present, and KM0 unless AllowNonKm0.
fn admits_key(km0: &Hash, act: &Record, key: &Hash) -> bool {
    optional_hash(act, 2, 4).is_none_or(|h| same(h, key)) && (flag(act, 1) || same(key, km0))
}

// A direct blob: AllowKmOnly, neither kthash nor ktparams, never under the null key.
fn admits_direct(act: &Record, key: &Hash) -> bool {
    act[3] & 0b1_1001 == 1 && *key != NULL_KEY
}

// A token's blob: kthash and ktparams if present; under the null key only with AllowNullKmToken.
fn admits_token(act: &Record, key: &Hash, rec: &Record) -> bool {
    optional_hash(act, 3, 24).is_none_or(|h| same(h, hash(rec, 24)))
        && (!flag(act, 4) || parameters(rec).within(parameters(act)))
        && (*key != NULL_KEY || flag(act, 5))
}

fn admits_blob(km0: &Hash, act: &Record, rec: &Record) -> bool {
    let key = hash(rec, 4);
    admits_key(km0, act, key) && if flag(rec, 0) { admits_token(act, key, rec) } else { admits_direct(act, key) }
}

fn admits_archive(act: &Record, rec: &Record) -> bool {
    be16(act, 24) == be16(rec, 24) && optional_hash(act, 0, 4).is_none_or(|h| same(h, hash(rec, 4)))
}

// A blob is returned to the host, or stored on a device of the mask, under the template, where they are restricted.
fn admits_blobfile(rule: Option<&Record>, asked: Option<&Record>) -> bool {
    match (rule, asked) {
        (None, None) => true,
        (Some(rule), Some(asked)) => {
            optional_devices(rule).is_none_or(|mask| be32(asked, 4) & !mask == 0)
                && optional_hash(rule, 1, 8).is_none_or(|h| optional_hash(asked, 1, 8).is_some_and(|a| same(a, h)))
        }
        _ => false,
    }
}

/// Takes from an ACL where its groups are, and which of them admit what is asked.
pub struct Admitting<'a> {
    asked: Asked<'a>,
    km0: &'a Hash,
    pub outline: Outline<'a>,
    pub groups: Set,
    // The bit of the group that is read.
    bit: Set,
}

impl<'a> Admitting<'a> {
    pub fn of(acl: &'a [Record], km0: &'a Hash, asked: Asked<'a>) -> Admitting<'a> {
        Admitting { asked, km0, outline: Outline::of(acl), groups: 0, bit: 0 }
    }

    fn blob(&mut self, record: &Record, blobfile: Option<&Record>) {
        let is_blob = matches!(self.asked, Asked::Blob(..));
        if is_blob && self.groups & self.bit == 0 && self.asked.admitted_by(self.km0, Action { record, blobfile }) {
            self.groups |= self.bit;
        }
    }
}

impl Taker for Admitting<'_> {
    fn group(&mut self, g: usize, at: usize, rec: &Record) {
        self.outline.group(g, at, rec);
        self.bit = 1 << g;
    }

    fn permissions(&mut self, rec: &Record) {
        if self.asked.admitted_by_permissions(rec) {
            self.groups |= self.bit;
        }
    }

    fn make_blob(&mut self, rec: &Record, blobfile: Option<&Record>) {
        self.blob(rec, blobfile);
    }

    fn make_archive_blob(&mut self, rec: &Record, blobfile: Option<&Record>) {
        self.blob(rec, blobfile);
    }
}
