//! Akubolinfe for Rust programs: safe functions over the C surface (`akubolinfe.h`, which says what each call does, what it answers and
//! what the caller owes). Every function takes any bytes of any length. A refused call changes nothing: no ledger, no cabinet, no buffer.
//!
//! The methods change the ledger or the cabinet in place. `by_value` has the functions that take it whole and return it.
#![allow(dead_code)]

/// What was used of one key: a count for each group, the named counters, the load time and the last time, in seconds. It is not `Copy`: a
/// ledger that was charged takes the place of the one before.
#[repr(C)]
#[derive(Clone, PartialEq, Eq, Debug)]
pub struct Ledger {
    pub counts: [u32; 64],
    pub counters: [u32; 256],
    pub loaded: u64,
    pub last: u64,
}

/// What a cabinet has of one key: what a ledger has besides its counters.
#[repr(C)]
#[derive(Clone, PartialEq, Eq, Debug)]
pub struct Slot {
    pub counts: [u32; 64],
    pub loaded: u64,
    pub last: u64,
}

/// Eight keys, each with a slot, and the named counters, which all of them share.
#[repr(C)]
#[derive(Clone, PartialEq, Eq, Debug)]
pub struct Cabinet {
    pub slots: [Slot; 8],
    pub counters: [u32; 256],
}

/// A decoded certificate: the hash of its key, and its mechanism, which is not zero.
#[repr(C)]
#[derive(Clone, Copy, PartialEq, Eq, Debug)]
pub struct Certificate {
    pub hash: [u8; 20],
    pub mechanism: u16,
}

/// The prepared form of an ACL: sets of its groups, bit g for group g, for each permission and for each kind of blob.
#[repr(C)]
#[derive(Clone, Copy, PartialEq, Eq, Debug)]
pub struct Form {
    pub uses: [u64; 16],
    pub working: u64,
    pub recovery: u64,
}

/// The answer of the gate: a load or a clear is done, a group permits, or a refusal with its number and, where that is 6 or 7, the group that
/// came nearest.
#[must_use]
#[derive(Clone, Copy, PartialEq, Eq, Debug)]
pub enum Reply {
    Done,
    Permit(u32),
    Refuse(u32, Option<u32>),
}

/// The desk's answer: what an acceptance names, the step that failed, or a refusal with its number.
#[must_use]
#[derive(Clone, Copy, PartialEq, Eq, Debug)]
pub enum Verdict {
    Generation,
    Policy { protection: u32, recoverable: bool },
    Failed(&'static str),
    Refused(u32),
}

/// The kinds of file that have a text; the text of an ACL is its listing.
#[derive(Clone, Copy, PartialEq, Eq, Debug)]
pub enum Kind {
    Acl = 0,
    Request = 1,
    Requests = 2,
    Bundle = 3,
    Hints = 4,
}

/// Why there is no listing or text, or no file of one: the first bad line, from 1; or a refusal with its number.
#[derive(Clone, Copy, PartialEq, Eq, Debug)]
pub enum NotListed {
    BadLine(u64),
    Refused(u32),
}

/// Nothing is named: a record, a group or an item in the answers of `locate`.
pub const UNNAMED: u32 = u32::MAX;

/// Where the first fault of a file is: part 1 is the length, 2 a record, 3 the end. `record` is the index of the record, from 0, or the
/// number of records. Refusal 0: the file has no fault.
#[must_use]
#[repr(C)]
#[derive(Clone, Copy, PartialEq, Eq, Debug)]
pub struct FilePlace {
    pub refusal: u32,
    pub part: u32,
    pub record: u32,
}

/// Where the first fault of a call is, by the numbers of the header. Refusal 0: the call would be permitted.
#[must_use]
#[repr(C)]
#[derive(Clone, Copy, PartialEq, Eq, Debug)]
pub struct CallPlace {
    pub refusal: u32,
    pub input: u32,
    pub part: u32,
    pub record: u32,
    pub group: u32,
    pub reason: u32,
    pub item: u32,
}

/// Why nothing was trimmed: a step before the ACL failed, or a refusal with its number.
#[derive(Clone, Copy, PartialEq, Eq, Debug)]
pub enum NotTrimmed {
    Failed(&'static str),
    Refused(u32),
}

/// The answer of a run: the number of its requests, or the number of the refusal of the run as a whole.
pub type Ran = Result<u64, u32>;

/// The attestation steps, numbered from 1.
pub const STEPS: [&str; 21] = [
    "WV1", "MSCV1", "MSCV2", "MSCV3", "MSCV4", "MSCV5", "WBCV1", "WBCV2", "WBCV3", "KGCV1", "KGCV2", "ACLV3", "WB1", "WB2",
    "WB3", "WB6", "RB1", "RB2", "RB3", "KV3", "CSRL1",
];

/// The `AKUBOLINFE_ABI` that this module was written for.
pub const ABI: u32 = 1;

/// Greatest lengths in bytes: of a subject, of a listing, of the texts of the other kinds of file, of an ACL and of hints.
pub const SUBJECT_BYTES: usize = 137;
pub const LISTING_BYTES: usize = 164_416;
pub const REQUEST_TEXT_BYTES: usize = 6_890;
pub const REQUESTS_TEXT_BYTES: usize = 179_000;
pub const BUNDLE_TEXT_BYTES: usize = 2_718;
pub const HINTS_TEXT_BYTES: usize = 3_520;
pub const ACL_BYTES: usize = 86_016;
pub const HINT_BYTES: usize = 4_096;

#[repr(C)]
struct RawReply {
    refusal: u32,
    group: u32,
}

#[repr(C)]
struct RawOutcome {
    refusal: u32,
    group: u32,
    ledger: Ledger,
}

#[repr(C)]
struct RawCabinetOutcome {
    refusal: u32,
    group: u32,
    cabinet: Cabinet,
}

#[repr(C)]
struct RawVerdict {
    refusal: u32,
    step: u32,
    approach: u32,
    protection: u32,
    recoverable: bool,
}

/// Where a verdict that is no acceptance comes from. `refusal` and `step` are the verdict's; on acceptance nothing is named. A refusal names the input (2
/// the ACL, 6 the bundle), the part (1 its length, 2 a record, 3 its end) and the record. A step of the bundle names what is wrong (1 a signature is
/// absent, 2 it is not good, 3 a field is absent, 4 it is not equal to what it must equal) and the number of the signature or field. A step of the ACL, and
/// KV3, names the first action that fails it and, for ACLV3, the lowest permission that is not admitted. What is not named is 0 (input, part, what, number)
/// or `u32::MAX` (record, group, action, permission).
#[repr(C)]
#[derive(Clone, Copy, Debug, PartialEq, Eq)]
pub struct VerdictPlace {
    pub refusal: u32,
    pub step: u32,
    pub input: u32,
    pub part: u32,
    pub record: u32,
    pub what: u32,
    pub number: u32,
    pub group: u32,
    pub action: u32,
    pub permission: u32,
}

#[repr(C)]
struct RawSubjectReply {
    refusal: u32,
    length: u64,
}

#[repr(C)]
struct RawTextReply {
    refusal: u32,
    line: u64,
    length: u64,
}

#[repr(C)]
struct RawTrimReply {
    refusal: u32,
    step: u32,
    acl_length: u64,
    hints_length: u64,
}

#[repr(C)]
struct RawRunReply {
    refusal: u32,
    count: u64,
}

#[repr(C)]
struct RawRunOutcome {
    refusal: u32,
    count: u64,
    ledger: Ledger,
}

#[repr(C)]
struct RawCabinetRunOutcome {
    refusal: u32,
    count: u64,
    cabinet: Cabinet,
}

#[repr(C)]
struct RawPreparation {
    refusal: u32,
    form: Form,
}

// Each slice is a pointer and a length: KM0 (k), an ACL (a), a request or requests (r), a new ACL (n), hints (h), certificates (c), a
// file of any kind (s), a text (t), a buffer (b).
extern "C" {
    fn akubolinfe_abi() -> u32;
    fn akubolinfe_fresh() -> Ledger;
    fn akubolinfe_load(l: Ledger, time: u64) -> RawOutcome;
    fn akubolinfe_load_in_place(l: &mut Ledger, time: u64) -> RawReply;
    fn akubolinfe_clear(l: Ledger, counter: usize) -> RawOutcome;
    fn akubolinfe_clear_in_place(l: &mut Ledger, counter: usize) -> RawReply;
    fn akubolinfe_request(l: Ledger, k: *const u8, kn: usize, a: *const u8, an: usize, r: *const u8, rn: usize) -> RawOutcome;
    fn akubolinfe_request_in_place(
        l: &mut Ledger, k: *const u8, kn: usize, a: *const u8, an: usize, r: *const u8, rn: usize,
    ) -> RawReply;
    fn akubolinfe_narrow(
        l: Ledger, k: *const u8, kn: usize, a: *const u8, an: usize, r: *const u8, rn: usize, n: *const u8, nn: usize,
        h: *const u8, hn: usize,
    ) -> RawOutcome;
    fn akubolinfe_narrow_in_place(
        l: &mut Ledger, k: *const u8, kn: usize, a: *const u8, an: usize, r: *const u8, rn: usize, n: *const u8, nn: usize,
        h: *const u8, hn: usize,
    ) -> RawReply;
    fn akubolinfe_expand(
        l: Ledger, k: *const u8, kn: usize, a: *const u8, an: usize, r: *const u8, rn: usize, n: *const u8, nn: usize,
    ) -> RawOutcome;
    fn akubolinfe_expand_in_place(
        l: &mut Ledger, k: *const u8, kn: usize, a: *const u8, an: usize, r: *const u8, rn: usize, n: *const u8, nn: usize,
    ) -> RawReply;
    fn akubolinfe_run(
        l: Ledger, k: *const u8, kn: usize, a: *const u8, an: usize, c: *const Certificate, cn: usize, r: *const u8,
        rn: usize, b: *mut u8, bn: usize,
    ) -> RawRunOutcome;
    fn akubolinfe_request_on_tables(
        g: &mut [u32; 64], c: &mut [u32; 256], l: u64, t: &mut u64, k: *const u8, kn: usize, a: *const u8, an: usize,
        r: *const u8, rn: usize,
    ) -> RawReply;
    fn akubolinfe_narrow_on_tables(
        g: &mut [u32; 64], c: &mut [u32; 256], l: u64, t: &mut u64, k: *const u8, kn: usize, a: *const u8, an: usize,
        r: *const u8, rn: usize, n: *const u8, nn: usize, h: *const u8, hn: usize,
    ) -> RawReply;
    fn akubolinfe_expand_on_tables(
        g: &mut [u32; 64], c: &mut [u32; 256], l: u64, t: &mut u64, k: *const u8, kn: usize, a: *const u8, an: usize,
        r: *const u8, rn: usize, n: *const u8, nn: usize,
    ) -> RawReply;
    fn akubolinfe_run_in_place(
        l: &mut Ledger, k: *const u8, kn: usize, a: *const u8, an: usize, c: *const Certificate, cn: usize, r: *const u8,
        rn: usize, b: *mut u8, bn: usize,
    ) -> RawRunReply;
    fn akubolinfe_prepared_run(
        l: Ledger, k: *const u8, kn: usize, a: *const u8, an: usize, c: *const Certificate, cn: usize, f: Form,
        r: *const u8, rn: usize, b: *mut u8, bn: usize,
    ) -> RawRunOutcome;
    fn akubolinfe_prepared_run_in_place(
        l: &mut Ledger, k: *const u8, kn: usize, a: *const u8, an: usize, c: *const Certificate, cn: usize, f: Form,
        r: *const u8, rn: usize, b: *mut u8, bn: usize,
    ) -> RawRunReply;
    fn akubolinfe_cabinet_fresh() -> Cabinet;
    fn akubolinfe_cabinet_load(s: Cabinet, slot: usize, time: u64) -> RawCabinetOutcome;
    fn akubolinfe_cabinet_load_in_place(s: &mut Cabinet, slot: usize, time: u64) -> RawReply;
    fn akubolinfe_cabinet_clear(s: Cabinet, counter: usize) -> RawCabinetOutcome;
    fn akubolinfe_cabinet_clear_in_place(s: &mut Cabinet, counter: usize) -> RawReply;
    fn akubolinfe_cabinet_request(
        s: Cabinet, slot: usize, k: *const u8, kn: usize, a: *const u8, an: usize, r: *const u8, rn: usize,
    ) -> RawCabinetOutcome;
    fn akubolinfe_cabinet_request_in_place(
        s: &mut Cabinet, slot: usize, k: *const u8, kn: usize, a: *const u8, an: usize, r: *const u8, rn: usize,
    ) -> RawReply;
    fn akubolinfe_cabinet_narrow(
        s: Cabinet, slot: usize, k: *const u8, kn: usize, a: *const u8, an: usize, r: *const u8, rn: usize, n: *const u8,
        nn: usize, h: *const u8, hn: usize,
    ) -> RawCabinetOutcome;
    fn akubolinfe_cabinet_narrow_in_place(
        s: &mut Cabinet, slot: usize, k: *const u8, kn: usize, a: *const u8, an: usize, r: *const u8, rn: usize,
        n: *const u8, nn: usize, h: *const u8, hn: usize,
    ) -> RawReply;
    fn akubolinfe_cabinet_expand(
        s: Cabinet, slot: usize, k: *const u8, kn: usize, a: *const u8, an: usize, r: *const u8, rn: usize, n: *const u8,
        nn: usize,
    ) -> RawCabinetOutcome;
    fn akubolinfe_cabinet_expand_in_place(
        s: &mut Cabinet, slot: usize, k: *const u8, kn: usize, a: *const u8, an: usize, r: *const u8, rn: usize,
        n: *const u8, nn: usize,
    ) -> RawReply;
    fn akubolinfe_cabinet_run(
        s: Cabinet, slot: usize, k: *const u8, kn: usize, a: *const u8, an: usize, c: *const Certificate, cn: usize,
        r: *const u8, rn: usize, b: *mut u8, bn: usize,
    ) -> RawCabinetRunOutcome;
    fn akubolinfe_cabinet_run_in_place(
        s: &mut Cabinet, slot: usize, k: *const u8, kn: usize, a: *const u8, an: usize, c: *const Certificate, cn: usize,
        r: *const u8, rn: usize, b: *mut u8, bn: usize,
    ) -> RawRunReply;
    fn akubolinfe_cabinet_prepared_run(
        s: Cabinet, slot: usize, k: *const u8, kn: usize, a: *const u8, an: usize, c: *const Certificate, cn: usize,
        f: Form, r: *const u8, rn: usize, b: *mut u8, bn: usize,
    ) -> RawCabinetRunOutcome;
    fn akubolinfe_cabinet_prepared_run_in_place(
        s: &mut Cabinet, slot: usize, k: *const u8, kn: usize, a: *const u8, an: usize, c: *const Certificate, cn: usize,
        f: Form, r: *const u8, rn: usize, b: *mut u8, bn: usize,
    ) -> RawRunReply;
    fn akubolinfe_prepare(a: *const u8, an: usize) -> RawPreparation;
    fn akubolinfe_desk(b: *const u8, bn: usize, a: *const u8, an: usize) -> RawVerdict;
    fn akubolinfe_locate_verdict(b: *const u8, bn: usize, a: *const u8, an: usize) -> VerdictPlace;
    fn akubolinfe_trim(
        b: *const u8, bn: usize, a: *const u8, an: usize, n: *mut u8, nn: usize, h: *mut u8, hn: usize,
    ) -> RawTrimReply;
    fn akubolinfe_subject(c: u64, s: u64, h: *const u8, hn: usize, b: *mut u8, bn: usize) -> RawSubjectReply;
    fn akubolinfe_write_listing(a: *const u8, an: usize, b: *mut u8, bn: usize) -> RawTextReply;
    fn akubolinfe_read_listing(t: *const u8, tn: usize, b: *mut u8, bn: usize) -> RawTextReply;
    fn akubolinfe_write_text(kind: u32, s: *const u8, sn: usize, b: *mut u8, bn: usize) -> RawTextReply;
    fn akubolinfe_read_text(kind: u32, t: *const u8, tn: usize, b: *mut u8, bn: usize) -> RawTextReply;
    fn akubolinfe_locate_file(kind: u32, s: *const u8, sn: usize) -> FilePlace;
    fn akubolinfe_locate_request(
        l: Ledger, k: *const u8, kn: usize, a: *const u8, an: usize, r: *const u8, rn: usize,
    ) -> CallPlace;
    fn akubolinfe_locate_narrow(
        l: Ledger, k: *const u8, kn: usize, a: *const u8, an: usize, r: *const u8, rn: usize, n: *const u8, nn: usize,
        h: *const u8, hn: usize,
    ) -> CallPlace;
    fn akubolinfe_locate_expand(
        l: Ledger, k: *const u8, kn: usize, a: *const u8, an: usize, r: *const u8, rn: usize, n: *const u8, nn: usize,
    ) -> CallPlace;
}

// The pointer of a slice; NULL where it is empty, as C programs pass it.
fn ptr<T>(s: &[T]) -> *const T {
    if s.is_empty() { std::ptr::null() } else { s.as_ptr() }
}

// The pointer of a buffer.
fn ptr_mut(s: &mut [u8]) -> *mut u8 {
    if s.is_empty() { std::ptr::null_mut() } else { s.as_mut_ptr() }
}

// A group that is not named has this number.
const NO_GROUP: u32 = u32::MAX;

fn reply(refusal: u32, group: u32) -> Reply {
    match (refusal, Some(group).filter(|&g| g != NO_GROUP)) {
        (0, None) => Reply::Done,
        (0, Some(g)) => Reply::Permit(g),
        (n, near) => Reply::Refuse(n, near),
    }
}

fn replied(r: RawReply) -> Reply {
    reply(r.refusal, r.group)
}

fn ran(r: RawRunReply) -> Ran {
    if r.refusal == 0 { Ok(r.count) } else { Err(r.refusal) }
}

/// The `AKUBOLINFE_ABI` of the library that is linked.
#[must_use]
pub fn abi() -> u32 {
    unsafe { akubolinfe_abi() }
}

impl Ledger {
    /// A ledger from which nothing was used, all zero. Load it before the first request.
    #[must_use]
    pub fn fresh() -> Ledger {
        unsafe { akubolinfe_fresh() }
    }

    /// A fresh ledger that is loaded.
    #[must_use]
    pub fn loaded(time: u64) -> Ledger {
        by_value::load(Ledger::fresh(), time).0
    }

    /// Loads the key, at any time: the counts of the groups become zero, both times are set.
    pub fn load(&mut self, time: u64) -> Reply {
        replied(unsafe { akubolinfe_load_in_place(self, time) })
    }

    /// Sets one named counter to zero.
    pub fn clear(&mut self, counter: usize) -> Reply {
        replied(unsafe { akubolinfe_clear_in_place(self, counter) })
    }

    /// Asks for a use of the key or for a blob: `req` is the request record with what goes with it, at most 50 records. Nothing is copied.
    pub fn request(&mut self, km0: &[u8], acl: &[u8], req: &[u8]) -> Reply {
        replied(unsafe {
            akubolinfe_request_on_tables(
                &mut self.counts, &mut self.counters, self.loaded, &mut self.last, ptr(km0), km0.len(), ptr(acl), acl.len(),
                ptr(req), req.len(),
            )
        })
    }

    /// Asks to replace the ACL by a narrower one; if it is permitted the new ACL is in force.
    pub fn narrow(&mut self, km0: &[u8], acl: &[u8], req: &[u8], new: &[u8], hints: &[u8]) -> Reply {
        replied(unsafe {
            akubolinfe_narrow_on_tables(
                &mut self.counts, &mut self.counters, self.loaded, &mut self.last, ptr(km0), km0.len(), ptr(acl), acl.len(),
                ptr(req), req.len(), ptr(new), new.len(), ptr(hints), hints.len(),
            )
        })
    }

    /// Asks to replace the ACL by any other; if it is permitted the new ACL is in force.
    pub fn expand(&mut self, km0: &[u8], acl: &[u8], req: &[u8], new: &[u8]) -> Reply {
        replied(unsafe {
            akubolinfe_expand_on_tables(
                &mut self.counts, &mut self.counters, self.loaded, &mut self.last, ptr(km0), km0.len(), ptr(acl), acl.len(),
                ptr(req), req.len(), ptr(new), new.len(),
            )
        })
    }

    /// Asks at most 100 requests, each of one record, in order, with the same certificates. Each answer has eight bytes of the buffer: 0 or
    /// the refusal's number in four, the group in four, all ones where none is named.
    pub fn run(
        &mut self, km0: &[u8], acl: &[u8], certificates: &[Certificate], requests: &[u8], answers: &mut [u8],
    ) -> Ran {
        ran(unsafe {
            akubolinfe_run_in_place(
                self, ptr(km0), km0.len(), ptr(acl), acl.len(), ptr(certificates), certificates.len(), ptr(requests),
                requests.len(), ptr_mut(answers), answers.len(),
            )
        })
    }

    /// Asks at most 1,000 requests on a prepared ACL; a form that is not this ACL's is refused with 14.
    pub fn prepared_run(
        &mut self, km0: &[u8], acl: &[u8], certificates: &[Certificate], form: Form, requests: &[u8], answers: &mut [u8],
    ) -> Ran {
        ran(unsafe {
            akubolinfe_prepared_run_in_place(
                self, ptr(km0), km0.len(), ptr(acl), acl.len(), ptr(certificates), certificates.len(), form, ptr(requests),
                requests.len(), ptr_mut(answers), answers.len(),
            )
        })
    }
}

/// The calls on a slot are those on a ledger, with the slot's counts and times and the shared counters; no other slot changes. An unknown
/// slot is refused with 13 before anything else is checked, by the library itself.
impl Cabinet {
    /// A cabinet from which nothing was used, all zero. Load each slot before its first request.
    #[must_use]
    pub fn fresh() -> Cabinet {
        unsafe { akubolinfe_cabinet_fresh() }
    }

    /// Loads the key of a slot, at any time.
    pub fn load(&mut self, slot: usize, time: u64) -> Reply {
        replied(unsafe { akubolinfe_cabinet_load_in_place(self, slot, time) })
    }

    /// Sets one named counter to zero, for every slot.
    pub fn clear(&mut self, counter: usize) -> Reply {
        replied(unsafe { akubolinfe_cabinet_clear_in_place(self, counter) })
    }

    /// Asks for a use of a slot's key or for a blob.
    pub fn request(&mut self, slot: usize, km0: &[u8], acl: &[u8], req: &[u8]) -> Reply {
        replied(unsafe {
            akubolinfe_cabinet_request_in_place(self, slot, ptr(km0), km0.len(), ptr(acl), acl.len(), ptr(req), req.len())
        })
    }

    /// Asks to replace the ACL of a slot by a narrower one.
    pub fn narrow(&mut self, slot: usize, km0: &[u8], acl: &[u8], req: &[u8], new: &[u8], hints: &[u8]) -> Reply {
        replied(unsafe {
            akubolinfe_cabinet_narrow_in_place(
                self, slot, ptr(km0), km0.len(), ptr(acl), acl.len(), ptr(req), req.len(), ptr(new), new.len(), ptr(hints),
                hints.len(),
            )
        })
    }

    /// Asks to replace the ACL of a slot by any other.
    pub fn expand(&mut self, slot: usize, km0: &[u8], acl: &[u8], req: &[u8], new: &[u8]) -> Reply {
        replied(unsafe {
            akubolinfe_cabinet_expand_in_place(
                self, slot, ptr(km0), km0.len(), ptr(acl), acl.len(), ptr(req), req.len(), ptr(new), new.len(),
            )
        })
    }

    /// A run of at most 100 requests in a slot.
    pub fn run(
        &mut self, slot: usize, km0: &[u8], acl: &[u8], certificates: &[Certificate], requests: &[u8], answers: &mut [u8],
    ) -> Ran {
        ran(unsafe {
            akubolinfe_cabinet_run_in_place(
                self, slot, ptr(km0), km0.len(), ptr(acl), acl.len(), ptr(certificates), certificates.len(),
                ptr(requests), requests.len(), ptr_mut(answers), answers.len(),
            )
        })
    }

    /// A run of at most 1,000 requests on a prepared ACL in a slot.
    pub fn prepared_run(
        &mut self, slot: usize, km0: &[u8], acl: &[u8], certificates: &[Certificate], form: Form, requests: &[u8],
        answers: &mut [u8],
    ) -> Ran {
        ran(unsafe {
            akubolinfe_cabinet_prepared_run_in_place(
                self, slot, ptr(km0), km0.len(), ptr(acl), acl.len(), ptr(certificates), certificates.len(), form,
                ptr(requests), requests.len(), ptr_mut(answers), answers.len(),
            )
        })
    }
}

/// The form of an ACL, made once for all its runs, or the ACL's refusal.
pub fn prepare(acl: &[u8]) -> Result<Form, u32> {
    let p = unsafe { akubolinfe_prepare(ptr(acl), acl.len()) };
    if p.refusal == 0 { Ok(p.form) } else { Err(p.refusal) }
}

/// The desk's verdict on a bundle and the ACL that comes with it.
pub fn assess(bundle: &[u8], acl: &[u8]) -> Verdict {
    let v = unsafe { akubolinfe_desk(ptr(bundle), bundle.len(), ptr(acl), acl.len()) };
    match (v.refusal, v.step, v.approach) {
        (0, 0, 1) => Verdict::Generation,
        (0, 0, _) => Verdict::Policy { protection: v.protection, recoverable: v.recoverable },
        (0, step, _) => Verdict::Failed(STEPS[step as usize - 1]),
        (n, _, _) => Verdict::Refused(n),
    }
}

/// Removes from an ACL what fails at the desk: writes the new ACL to the front of `new` and the hints with which it narrows the old one to
/// the front of `hints`, and returns both lengths.
pub fn trim(bundle: &[u8], acl: &[u8], new: &mut [u8], hints: &mut [u8]) -> Result<(u64, u64), NotTrimmed> {
    let t = unsafe {
        akubolinfe_trim(
            ptr(bundle), bundle.len(), ptr(acl), acl.len(), ptr_mut(new), new.len(), ptr_mut(hints), hints.len(),
        )
    };
    match (t.refusal, t.step) {
        (0, 0) => Ok((t.acl_length, t.hints_length)),
        (0, step) => Err(NotTrimmed::Failed(STEPS[step as usize - 1])),
        (n, _) => Err(NotTrimmed::Refused(n)),
    }
}

/// Writes the subject of a world certificate to the front of the buffer and returns its length, or a refusal's number. The hashes are KNSO, KM,
/// KMC (certificate 3), KNSO, KM, KMC, KFIPS (4), or KNSO, KRE, KRA (5).
pub fn write_subject(certificate: u64, suite: u64, hashes: &[u8], buffer: &mut [u8]) -> Result<u64, u32> {
    let w = unsafe { akubolinfe_subject(certificate, suite, ptr(hashes), hashes.len(), ptr_mut(buffer), buffer.len()) };
    if w.refusal == 0 { Ok(w.length) } else { Err(w.refusal) }
}

fn listed(t: RawTextReply) -> Result<u64, NotListed> {
    match t.refusal {
        0 => Ok(t.length),
        15 => Err(NotListed::BadLine(t.line)),
        n => Err(NotListed::Refused(n)),
    }
}

/// Writes the listing of an ACL to the front of the buffer and returns its length.
pub fn write_listing(acl: &[u8], buffer: &mut [u8]) -> Result<u64, NotListed> {
    listed(unsafe { akubolinfe_write_listing(ptr(acl), acl.len(), ptr_mut(buffer), buffer.len()) })
}

/// Writes the ACL of a listing to the front of the buffer and returns its length.
pub fn read_listing(text: &[u8], buffer: &mut [u8]) -> Result<u64, NotListed> {
    listed(unsafe { akubolinfe_read_listing(ptr(text), text.len(), ptr_mut(buffer), buffer.len()) })
}

/// The three calls of a ledger by C's functions over a lent ledger, which copy it; the ledger's own methods answer the same.
pub mod in_place {
    use super::*;

    pub fn request(ledger: &mut Ledger, km0: &[u8], acl: &[u8], req: &[u8]) -> Reply {
        replied(unsafe { akubolinfe_request_in_place(ledger, ptr(km0), km0.len(), ptr(acl), acl.len(), ptr(req), req.len()) })
    }

    pub fn narrow(ledger: &mut Ledger, km0: &[u8], acl: &[u8], req: &[u8], new: &[u8], hints: &[u8]) -> Reply {
        replied(unsafe {
            akubolinfe_narrow_in_place(
                ledger, ptr(km0), km0.len(), ptr(acl), acl.len(), ptr(req), req.len(), ptr(new), new.len(), ptr(hints),
                hints.len(),
            )
        })
    }

    pub fn expand(ledger: &mut Ledger, km0: &[u8], acl: &[u8], req: &[u8], new: &[u8]) -> Reply {
        replied(unsafe {
            akubolinfe_expand_in_place(
                ledger, ptr(km0), km0.len(), ptr(acl), acl.len(), ptr(req), req.len(), ptr(new), new.len(),
            )
        })
    }
}

/// Writes the text of a file to the front of the buffer and returns its length.
pub fn write_text(kind: Kind, file: &[u8], buffer: &mut [u8]) -> Result<u64, NotListed> {
    by_number::write_text(kind as u32, file, buffer)
}

/// Writes the file of a text to the front of the buffer and returns its length.
pub fn read_text(kind: Kind, text: &[u8], buffer: &mut [u8]) -> Result<u64, NotListed> {
    by_number::read_text(kind as u32, text, buffer)
}

/// Where a fault is. Nothing is charged or changed.
pub mod locate {
    use super::*;

    /// Where the first fault of a file is.
    pub fn file(kind: Kind, file: &[u8]) -> FilePlace {
        by_number::locate_file(kind as u32, file)
    }

    /// Where the first fault of a request is.
    pub fn request(ledger: &Ledger, km0: &[u8], acl: &[u8], req: &[u8]) -> CallPlace {
        unsafe { akubolinfe_locate_request(ledger.clone(), ptr(km0), km0.len(), ptr(acl), acl.len(), ptr(req), req.len()) }
    }

    /// Where the first fault of a narrowing is.
    pub fn narrow(ledger: &Ledger, km0: &[u8], acl: &[u8], req: &[u8], new: &[u8], hints: &[u8]) -> CallPlace {
        unsafe {
            akubolinfe_locate_narrow(
                ledger.clone(), ptr(km0), km0.len(), ptr(acl), acl.len(), ptr(req), req.len(), ptr(new), new.len(), ptr(hints),
                hints.len(),
            )
        }
    }

    /// Where the first fault of an expansion is.
    pub fn expand(ledger: &Ledger, km0: &[u8], acl: &[u8], req: &[u8], new: &[u8]) -> CallPlace {
        unsafe {
            akubolinfe_locate_expand(
                ledger.clone(), ptr(km0), km0.len(), ptr(acl), acl.len(), ptr(req), req.len(), ptr(new), new.len(),
            )
        }
    }

    /// Where the verdict of `assess` on the same bytes comes from.
    pub fn verdict(bundle: &[u8], acl: &[u8]) -> VerdictPlace {
        unsafe { akubolinfe_locate_verdict(ptr(bundle), bundle.len(), ptr(acl), acl.len()) }
    }
}

/// The functions for files with the number of a kind, as in the header. An unknown kind is refused with 10 before anything else is checked.
pub mod by_number {
    use super::*;

    pub fn write_text(kind: u32, file: &[u8], buffer: &mut [u8]) -> Result<u64, NotListed> {
        listed(unsafe { akubolinfe_write_text(kind, ptr(file), file.len(), ptr_mut(buffer), buffer.len()) })
    }

    pub fn read_text(kind: u32, text: &[u8], buffer: &mut [u8]) -> Result<u64, NotListed> {
        listed(unsafe { akubolinfe_read_text(kind, ptr(text), text.len(), ptr_mut(buffer), buffer.len()) })
    }

    pub fn locate_file(kind: u32, file: &[u8]) -> FilePlace {
        unsafe { akubolinfe_locate_file(kind, ptr(file), file.len()) }
    }
}

/// The same calls by value: each takes the ledger or the cabinet whole and returns it, changed unless the call is refused.
pub mod by_value {
    use super::*;

    fn outcome(o: RawOutcome) -> (Ledger, Reply) {
        (o.ledger, reply(o.refusal, o.group))
    }

    fn cabinet_outcome(o: RawCabinetOutcome) -> (Cabinet, Reply) {
        (o.cabinet, reply(o.refusal, o.group))
    }

    fn run_outcome(o: RawRunOutcome) -> (Ledger, Ran) {
        (o.ledger, super::ran(RawRunReply { refusal: o.refusal, count: o.count }))
    }

    fn cabinet_run_outcome(o: RawCabinetRunOutcome) -> (Cabinet, Ran) {
        (o.cabinet, super::ran(RawRunReply { refusal: o.refusal, count: o.count }))
    }

    #[must_use]
    pub fn load(ledger: Ledger, time: u64) -> (Ledger, Reply) {
        outcome(unsafe { akubolinfe_load(ledger, time) })
    }

    #[must_use]
    pub fn clear(ledger: Ledger, counter: usize) -> (Ledger, Reply) {
        outcome(unsafe { akubolinfe_clear(ledger, counter) })
    }

    #[must_use]
    pub fn request(ledger: Ledger, km0: &[u8], acl: &[u8], req: &[u8]) -> (Ledger, Reply) {
        outcome(unsafe { akubolinfe_request(ledger, ptr(km0), km0.len(), ptr(acl), acl.len(), ptr(req), req.len()) })
    }

    #[must_use]
    pub fn narrow(ledger: Ledger, km0: &[u8], acl: &[u8], req: &[u8], new: &[u8], hints: &[u8]) -> (Ledger, Reply) {
        outcome(unsafe {
            akubolinfe_narrow(
                ledger, ptr(km0), km0.len(), ptr(acl), acl.len(), ptr(req), req.len(), ptr(new), new.len(), ptr(hints),
                hints.len(),
            )
        })
    }

    #[must_use]
    pub fn expand(ledger: Ledger, km0: &[u8], acl: &[u8], req: &[u8], new: &[u8]) -> (Ledger, Reply) {
        outcome(unsafe {
            akubolinfe_expand(ledger, ptr(km0), km0.len(), ptr(acl), acl.len(), ptr(req), req.len(), ptr(new), new.len())
        })
    }

    #[must_use]
    pub fn run(
        ledger: Ledger, km0: &[u8], acl: &[u8], certificates: &[Certificate], requests: &[u8], answers: &mut [u8],
    ) -> (Ledger, Ran) {
        run_outcome(unsafe {
            akubolinfe_run(
                ledger, ptr(km0), km0.len(), ptr(acl), acl.len(), ptr(certificates), certificates.len(), ptr(requests),
                requests.len(), ptr_mut(answers), answers.len(),
            )
        })
    }

    #[must_use]
    pub fn prepared_run(
        ledger: Ledger, km0: &[u8], acl: &[u8], certificates: &[Certificate], form: Form, requests: &[u8],
        answers: &mut [u8],
    ) -> (Ledger, Ran) {
        run_outcome(unsafe {
            akubolinfe_prepared_run(
                ledger, ptr(km0), km0.len(), ptr(acl), acl.len(), ptr(certificates), certificates.len(), form,
                ptr(requests), requests.len(), ptr_mut(answers), answers.len(),
            )
        })
    }

    #[must_use]
    pub fn cabinet_load(cabinet: Cabinet, slot: usize, time: u64) -> (Cabinet, Reply) {
        cabinet_outcome(unsafe { akubolinfe_cabinet_load(cabinet, slot, time) })
    }

    #[must_use]
    pub fn cabinet_clear(cabinet: Cabinet, counter: usize) -> (Cabinet, Reply) {
        cabinet_outcome(unsafe { akubolinfe_cabinet_clear(cabinet, counter) })
    }

    #[must_use]
    pub fn cabinet_request(cabinet: Cabinet, slot: usize, km0: &[u8], acl: &[u8], req: &[u8]) -> (Cabinet, Reply) {
        cabinet_outcome(unsafe {
            akubolinfe_cabinet_request(cabinet, slot, ptr(km0), km0.len(), ptr(acl), acl.len(), ptr(req), req.len())
        })
    }

    #[must_use]
    pub fn cabinet_narrow(
        cabinet: Cabinet, slot: usize, km0: &[u8], acl: &[u8], req: &[u8], new: &[u8], hints: &[u8],
    ) -> (Cabinet, Reply) {
        cabinet_outcome(unsafe {
            akubolinfe_cabinet_narrow(
                cabinet, slot, ptr(km0), km0.len(), ptr(acl), acl.len(), ptr(req), req.len(), ptr(new), new.len(),
                ptr(hints), hints.len(),
            )
        })
    }

    #[must_use]
    pub fn cabinet_expand(
        cabinet: Cabinet, slot: usize, km0: &[u8], acl: &[u8], req: &[u8], new: &[u8],
    ) -> (Cabinet, Reply) {
        cabinet_outcome(unsafe {
            akubolinfe_cabinet_expand(
                cabinet, slot, ptr(km0), km0.len(), ptr(acl), acl.len(), ptr(req), req.len(), ptr(new), new.len(),
            )
        })
    }

    #[must_use]
    pub fn cabinet_run(
        cabinet: Cabinet, slot: usize, km0: &[u8], acl: &[u8], certificates: &[Certificate], requests: &[u8],
        answers: &mut [u8],
    ) -> (Cabinet, Ran) {
        cabinet_run_outcome(unsafe {
            akubolinfe_cabinet_run(
                cabinet, slot, ptr(km0), km0.len(), ptr(acl), acl.len(), ptr(certificates), certificates.len(),
                ptr(requests), requests.len(), ptr_mut(answers), answers.len(),
            )
        })
    }

    #[must_use]
    pub fn cabinet_prepared_run(
        cabinet: Cabinet, slot: usize, km0: &[u8], acl: &[u8], certificates: &[Certificate], form: Form, requests: &[u8],
        answers: &mut [u8],
    ) -> (Cabinet, Ran) {
        cabinet_run_outcome(unsafe {
            akubolinfe_cabinet_prepared_run(
                cabinet, slot, ptr(km0), km0.len(), ptr(acl), acl.len(), ptr(certificates), certificates.len(), form,
                ptr(requests), requests.len(), ptr_mut(answers), answers.len(),
            )
        })
    }
}
