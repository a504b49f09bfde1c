//! The gate: loads, clears, requests, narrowings and expansions, on a ledger and in a slot of a cabinet.

use super::acl::{self, limits, Outline};
use super::admits::{Admitting, Asked};
use super::certify::Presented;
use super::narrow::shows_narrowing;
use super::record::*;
use super::request::{self, Request};
use super::{unless, Cabinet, Ledger, Refusal, Reply, Slot};

// The permissions whose use a narrowing and an expansion are.
const REDUCE_ACL: u8 = 2;
const EXPAND_ACL: u8 = 12;

/// The tables of a key in use: its own counts and times, and the named counters.
pub struct Tables<'a> {
    pub counts: &'a mut [u32; 64],
    pub counters: &'a mut [u32; 256],
    pub loaded: u64,
    pub last: &'a mut u64,
}

/// The group that grants, with its limits.
struct Grant<'a> {
    group: usize,
    body: &'a [Record],
}

/// Why no group grants: the clock, or how far the nearest group came.
enum Denial {
    ClockBack,
    NotAdmitted,
    NotCertified(usize),
    Spent(usize),
}

impl From<Refusal> for Reply {
    fn from(why: Refusal) -> Reply {
        Reply::Refuse(why as u32, None)
    }
}

impl From<Denial> for Reply {
    fn from(why: Denial) -> Reply {
        match why {
            Denial::ClockBack => Reply::Refuse(4, None),
            Denial::NotAdmitted => Reply::Refuse(5, None),
            Denial::NotCertified(group) => Reply::Refuse(6, Some(group as u32)),
            Denial::Spent(group) => Reply::Refuse(7, Some(group as u32)),
        }
    }
}

pub fn hash_of(bytes: &[u8]) -> Result<&Hash, Refusal> {
    bytes.try_into().map_err(|_| Refusal::BadLength)
}

// What has a length is tested whole, before the first record is looked at.
struct Files<'a> {
    km0: &'a Hash,
    acl: &'a [Record],
    req: &'a [Record],
}

impl<'a> Files<'a> {
    fn of(km0: &'a [u8], acl: &'a [u8], req: &'a [u8]) -> Result<Files<'a>, Refusal> {
        Ok(Files { km0: hash_of(km0)?, acl: whole(acl, ACL_RECORDS)?, req: whole(req, REQUEST_RECORDS)? })
    }

    // The ACL is read before the request is tested, and for what the request seems to ask for.
    fn admitting(&self) -> Result<Admitting<'a>, Refusal> {
        let mut admitting = Admitting::of(self.acl, self.km0, Asked::of(self.req));
        acl::read(self.acl, &mut admitting)?;
        Ok(admitting)
    }
}

impl Tables<'_> {
    // Whether a limit leaves room: of the group's own count, of a named counter, or of the seconds since the load. Below a maximum of 32 bits neither is full.
    fn is_left(&self, own: u32, elapsed: u64, limit: &Record) -> bool {
        let maximum = be32(limit, 8);
        match limit[4] {
            1 => own < maximum,
            2 => self.counters[usize::from(limit[5])] < maximum,
            _ => elapsed < u64::from(maximum),
        }
    }

    // The lowest group that admits, is certified and unspent.
    fn decide<'a>(&self, admitting: &Admitting<'a>, req: &Request<'a>) -> Result<Grant<'a>, Denial> {
        let time = req.time();
        if time < self.loaded || time < *self.last {
            return Err(Denial::ClockBack);
        }
        let elapsed = time - self.loaded;
        let mut presented = Presented::of(req);
        let mut spent = None;
        for group in members(admitting.groups) {
            let (head, body) = admitting.outline.get(group);
            if !presented.certifies(head) {
                continue;
            }
            let own = self.counts[group];
            if own < u32::MAX && limits(body).all(|limit| self.is_left(own, elapsed, limit)) {
                return Ok(Grant { group, body });
            }
            spent = spent.or(Some(group));
        }
        Err(match (spent, admitting.groups) {
            (Some(group), _) => Denial::Spent(group),
            (None, 0) => Denial::NotAdmitted,
            (None, groups) => Denial::NotCertified(groups.trailing_zeros() as usize),
        })
    }

    // Own count and each named counter plus 1, last time set. The group is unspent, so that none of them is full.
    fn charge(&mut self, grant: &Grant, time: u64) {
        self.counts[grant.group] += 1;
        for limit in limits(grant.body).filter(|limit| limit[4] == 2) {
            self.counters[usize::from(limit[5])] += 1;
        }
        *self.last = time;
    }

    // The three below change the tables only once nothing can refuse any more.
    fn request(&mut self, km0: &[u8], acl: &[u8], req: &[u8]) -> Result<usize, Reply> {
        let files = Files::of(km0, acl, req)?;
        let admitting = files.admitting()?;
        let req = request::read(files.req)?;
        let grant = self.decide(&admitting, &req)?;
        self.charge(&grant, req.time());
        Ok(grant.group)
    }

    fn narrow(&mut self, km0: &[u8], acl: &[u8], req: &[u8], new: &[u8], hints: &[u8]) -> Result<usize, Reply> {
        let files = Files::of(km0, acl, req)?;
        let (new, hints) = (whole(new, ACL_RECORDS)?, whole(hints, HINT_RECORDS)?);
        let admitting = files.admitting()?;
        let req = request::read_use(REDUCE_ACL, files.req)?;
        let mut outline = Outline::of(new);
        acl::read(new, &mut outline)?;
        request::check_hints(hints)?;
        let grant = self.decide(&admitting, &req)?;
        unless(shows_narrowing(&admitting.outline, &outline, hints), Refusal::NotNarrower)?;
        self.charge(&grant, req.time());
        self.carry(hints);
        Ok(grant.group)
    }

    fn expand(&mut self, km0: &[u8], acl: &[u8], req: &[u8], new: &[u8]) -> Result<usize, Reply> {
        let files = Files::of(km0, acl, req)?;
        let new = whole(new, ACL_RECORDS)?;
        let admitting = files.admitting()?;
        let req = request::read_use(EXPAND_ACL, files.req)?;
        acl::read(new, &mut ())?;
        let grant = self.decide(&admitting, &req)?;
        self.charge(&grant, req.time());
        *self.counts = [0; GROUPS];
        Ok(grant.group)
    }

    // Each new group takes the count of the source that its hint names; the counts past the last new group are zero.
    fn carry(&mut self, hints: &[Record]) {
        let from = *self.counts;
        *self.counts = [0; GROUPS];
        for (count, hint) in self.counts.iter_mut().zip(hints) {
            *count = from[usize::from(hint[4])];
        }
    }
}

fn reply(decided: Result<usize, Reply>) -> Reply {
    decided.map_or_else(|refused| refused, |group| Reply::Permit(group as u32))
}

fn clear(counters: &mut [u32; 256], counter: usize) -> Reply {
    counters.get_mut(counter).map_or(Refusal::OutOfRange.into(), |count| {
        *count = 0;
        Reply::Done
    })
}

impl Ledger {
    /// The fresh ledger: all zero.
    pub fn fresh() -> Ledger {
        Ledger { counts: [0; 64], counters: [0; 256], loaded: 0, last: 0 }
    }

    /// A load, at any time. Like the library's functions, it is called and not inlined.
    #[inline(never)]
    pub fn load(&mut self, time: u64) -> Reply {
        self.counts = [0; 64];
        self.loaded = time;
        self.last = time;
        Reply::Done
    }

    /// A clear of one named counter.
    #[inline(never)]
    pub fn clear(&mut self, counter: usize) -> Reply {
        clear(&mut self.counters, counter)
    }

    pub(super) fn tables(&mut self) -> Tables<'_> {
        Tables { counts: &mut self.counts, counters: &mut self.counters, loaded: self.loaded, last: &mut self.last }
    }

    /// A request for a use or a blob.
    pub fn request(&mut self, km0: &[u8], acl: &[u8], req: &[u8]) -> Reply {
        reply(self.tables().request(km0, acl, req))
    }

    /// A narrowing; if it is permitted the new ACL is in force.
    pub fn narrow(&mut self, km0: &[u8], acl: &[u8], req: &[u8], new: &[u8], hints: &[u8]) -> Reply {
        reply(self.tables().narrow(km0, acl, req, new, hints))
    }

    /// An expansion; if it is permitted the new ACL is in force.
    pub fn expand(&mut self, km0: &[u8], acl: &[u8], req: &[u8], new: &[u8]) -> Reply {
        reply(self.tables().expand(km0, acl, req, new))
    }
}

impl Cabinet {
    /// The fresh cabinet: all zero.
    pub fn fresh() -> Cabinet {
        Cabinet { slots: std::array::from_fn(|_| Slot { counts: [0; 64], loaded: 0, last: 0 }), counters: [0; 256] }
    }

    /// A load of a slot, at any time.
    #[inline(never)]
    pub fn load(&mut self, slot: usize, time: u64) -> Reply {
        self.slots.get_mut(slot).map_or(Refusal::NoSlot.into(), |slot| {
            *slot = Slot { counts: [0; 64], loaded: time, last: time };
            Reply::Done
        })
    }

    /// A clear of one named counter, for every slot.
    #[inline(never)]
    pub fn clear(&mut self, counter: usize) -> Reply {
        clear(&mut self.counters, counter)
    }

    pub(super) fn tables(&mut self, slot: usize) -> Result<Tables<'_>, Refusal> {
        let slot = self.slots.get_mut(slot).ok_or(Refusal::NoSlot)?;
        Ok(Tables { counts: &mut slot.counts, counters: &mut self.counters, loaded: slot.loaded, last: &mut slot.last })
    }

    /// The calls on a slot are those on a ledger.
    pub fn request(&mut self, slot: usize, km0: &[u8], acl: &[u8], req: &[u8]) -> Reply {
        self.tables(slot).map_or_else(Reply::from, |mut tables| reply(tables.request(km0, acl, req)))
    }

    pub fn narrow(&mut self, slot: usize, km0: &[u8], acl: &[u8], req: &[u8], new: &[u8], hints: &[u8]) -> Reply {
        self.tables(slot).map_or_else(Reply::from, |mut tables| reply(tables.narrow(km0, acl, req, new, hints)))
    }

    pub fn expand(&mut self, slot: usize, km0: &[u8], acl: &[u8], req: &[u8], new: &[u8]) -> Reply {
        self.tables(slot).map_or_else(Reply::from, |mut tables| reply(tables.expand(km0, acl, req, new)))
    }
}

/// Calls that take the ledger or the cabinet whole and return it.
pub mod by_value {
    use super::*;

    #[inline(never)]
    pub fn request(mut ledger: Ledger, km0: &[u8], acl: &[u8], req: &[u8]) -> (Ledger, Reply) {
        let reply = ledger.request(km0, acl, req);
        (ledger, reply)
    }

    #[inline(never)]
    pub fn cabinet_request(mut cabinet: Cabinet, slot: usize, km0: &[u8], acl: &[u8], req: &[u8]) -> (Cabinet, Reply) {
        let reply = cabinet.request(slot, km0, acl, req);
        (cabinet, reply)
    }
}
