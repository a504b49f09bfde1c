//! Reading an ACL: one pass, in which each record is tested and given to what takes from it.

use super::record::*;
use super::{unless, Refusal};

/// What is taken from an ACL while it is read. A fault may still follow: then nothing of it counts.
pub trait Taker {
    /// The record of group `g`, which is record `at` of the file.
    fn group(&mut self, _g: usize, _at: usize, _rec: &Record) {}
    fn limit(&mut self, _rec: &Record) {}
    fn permissions(&mut self, _rec: &Record) {}
    /// A blob action, and the record that follows it where its flag 6 announces one of kind 15.
    fn make_blob(&mut self, _rec: &Record, _blobfile: Option<&Record>) {}
    fn make_archive_blob(&mut self, _rec: &Record, _blobfile: Option<&Record>) {}
}

/// Takes nothing: the tests alone.
impl Taker for () {}

// Kinds that may come next, bit k for kind k: at the start, after a group or a limit, after an action, and where kind 15 is announced.
const AT_START: u32 = 1 << 1;
const IN_LIMITS: u32 = 1 << 1 | 1 << 2 | 1 << 3 | 1 << 4 | 1 << 5;
const IN_ACTIONS: u32 = 1 << 1 | 1 << 3 | 1 << 4 | 1 << 5;
const BLOBFILE_NEXT: u32 = 1 << 15;

/// How far an ACL is read: its groups; of the last group whether it has a certifier, sort and counter of each limit, sixteen bits for each, and the
/// number of actions; the kinds that may come next.
pub struct State {
    groups: usize,
    certified: bool,
    limits: u64,
    actions: usize,
    next: u32,
}

impl State {
    pub fn start() -> State {
        State { groups: 0, certified: false, limits: 0, actions: 0, next: AT_START }
    }

    fn group(&mut self, rec: &Record) -> Result<(), Refusal> {
        let flags = rec[3] & 3;
        unless(GROUP[usize::from(flags)].clear(rec) && (flags != 3 || be16(rec, 24) != 0), Refusal::Malformed)?;
        unless(self.groups < GROUPS, Refusal::TooMany)?;
        self.groups += 1;
        self.certified = flags & 1 == 1;
        self.limits = 0;
        self.actions = 0;
        self.next = IN_LIMITS;
        Ok(())
    }

    // No sort and counter twice. Sorts are not zero, so that an entry which is zero is none.
    fn limit(&mut self, rec: &Record) -> Result<(), Refusal> {
        let key = be16(rec, 4);
        let known = key >> 8 == 2 || key == 0x100 || key == 0x300;
        let twice = (0..LIMITS).any(|i| (self.limits >> (16 * i)) as u16 == key);
        unless(LIMIT.clear(rec) && known && !twice, Refusal::Malformed)?;
        unless(self.limits >> 48 == 0, Refusal::TooMany)?;
        self.limits = self.limits << 16 | u64::from(key);
        Ok(())
    }

    fn action(&mut self, well_formed: bool, stored: bool) -> Result<(), Refusal> {
        unless(well_formed, Refusal::Malformed)?;
        unless(self.actions < ACTIONS, Refusal::TooMany)?;
        self.actions += 1;
        self.next = if stored { BLOBFILE_NEXT } else { IN_ACTIONS };
        Ok(())
    }

    fn make_blob(&mut self, rec: &Record) -> Result<(), Refusal> {
        let clear = MAKE_BLOB[usize::from(rec[3] >> 2 & 7)].clear(rec);
        self.action(clear && (!flag(rec, 4) || parameters(rec).well_formed()), flag(rec, 6))
    }

    // An action of a group without certifier names its key.
    fn make_archive_blob(&mut self, rec: &Record) -> Result<(), Refusal> {
        let clear = MAKE_ARCHIVE_BLOB[usize::from(rec[3] & 1)].clear(rec);
        self.action(clear && be16(rec, 24) != 0, flag(rec, 6))?;
        unless(self.certified || flag(rec, 0), Refusal::OpenArchive)
    }

    /// Tests record `at` of the records, which is the next one.
    #[inline(always)]
    pub fn step(&mut self, records: &[Record], at: usize, taker: &mut impl Taker) -> Result<(), Refusal> {
        let rec = &records[at];
        // Of a kind over 31 only the last five bits are looked up; it has no case below.
        unless(self.next >> (rec[0] % 32) & 1 == 1, Refusal::Malformed)?;
        let blobfile = || records.get(at + 1).filter(|_| flag(rec, 6));
        match rec[0] {
            1 => self.group(rec).map(|()| taker.group(self.groups - 1, at, rec)),
            2 => self.limit(rec).map(|()| taker.limit(rec)),
            3 => self.action(PERMISSIONS.clear(rec), false).map(|()| taker.permissions(rec)),
            4 => self.make_blob(rec).map(|()| taker.make_blob(rec, blobfile())),
            5 => self.make_archive_blob(rec).map(|()| taker.make_archive_blob(rec, blobfile())),
            15 => {
                self.next = IN_ACTIONS;
                unless(is_blobfile(rec), Refusal::Malformed)
            }
            _ => Err(Refusal::Malformed),
        }
    }

    /// A record of kind 15 may be missing at the end.
    pub fn end(&self) -> Result<(), Refusal> {
        unless(self.next != BLOBFILE_NEXT, Refusal::Malformed)
    }
}

/// Reads an ACL up to its first fault.
pub fn read(records: &[Record], taker: &mut impl Taker) -> Result<(), Refusal> {
    let mut state = State::start();
    for at in 0..records.len() {
        state.step(records, at, taker)?;
    }
    state.end()
}

/// An ACL with the places of its groups, which are taken while it is read.
pub struct Outline<'a> {
    acl: &'a [Record],
    pub groups: usize,
    at: [u16; GROUPS],
}

impl<'a> Outline<'a> {
    pub fn of(acl: &'a [Record]) -> Outline<'a> {
        Outline { acl, groups: 0, at: [0; GROUPS] }
    }

    /// A group: its record and what follows it, up to the end of the file.
    pub fn get(&self, g: usize) -> (&'a Record, &'a [Record]) {
        self.acl[usize::from(self.at[g])..].split_first().expect("a group's record")
    }
}

impl Taker for Outline<'_> {
    fn group(&mut self, g: usize, at: usize, _: &Record) {
        self.at[g] = at as u16;
        self.groups = g + 1;
    }
}

/// The limits of a group, of the records that follow its first one.
pub fn limits(body: &[Record]) -> impl Iterator<Item = &Record> {
    body.iter().take_while(|rec| rec[0] == 2)
}

/// An action and its record of kind 15, if it has one.
#[derive(Clone, Copy)]
pub struct Action<'a> {
    pub record: &'a Record,
    pub blobfile: Option<&'a Record>,
}

/// The actions of a group, of the records that follow its first one.
pub fn actions(body: &[Record]) -> impl Iterator<Item = Action<'_>> {
    let own = body.iter().enumerate().skip_while(|(_, rec)| rec[0] == 2).take_while(|(_, rec)| rec[0] != 1);
    own.filter(|(_, rec)| rec[0] != 15).map(|(i, record)| Action { record, blobfile: body.get(i + 1).filter(|_| flag(record, 6)) })
}
