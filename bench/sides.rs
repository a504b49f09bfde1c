//! The two programs behind one trait. Both have the same names and types, so that one macro writes what is measured of either.

use crate::cases::{Call, Case};
use crate::inputs::TIME;
use std::hint::black_box;

/// What is measured of a program, from a loaded ledger and a loaded slot on.
pub trait Side {
    /// So many calls of a case.
    fn calls(&mut self, case: &Case, n: u32);
    /// The last answer; for a run its first and its last.
    fn answer(&self) -> String;
    /// Everything that the calls have changed.
    fn state(&self) -> String;
}

const SLOT: usize = 5;

fn repeat<T>(n: u32, mut call: impl FnMut() -> T) -> T {
    let mut answer = call();
    for _ in 1..n {
        answer = black_box(call());
    }
    answer
}

// The first and the last of a run's answers: number and group of each.
fn ends(answers: &[u8]) -> String {
    let number = |b: &[u8]| u32::from_be_bytes(b.try_into().unwrap());
    let (first, last) = (&answers[..8], &answers[answers.len() - 8..]);
    format!("{:?} {:?}", (number(&last[..4]), number(&last[4..])), (number(&first[..4]), number(&first[4..])))
}

macro_rules! side {
    ($name:ident, $told:ident, $program:ident) => {
        #[derive(Debug)]
        enum $told {
            Nothing,
            Reply($program::Reply),
            Ran($program::Ran),
            Form(Result<$program::Form, u32>),
            Verdict($program::Verdict),
            Trimmed(Result<(u64, u64), $program::NotTrimmed>),
            Subject(Result<u64, u32>),
            Listed(Result<u64, $program::NotListed>),
        }

        pub struct $name {
            ledger: $program::Ledger,
            cabinet: $program::Cabinet,
            row: Vec<$program::Certificate>,
            form: $program::Form,
            buffer: Vec<u8>,
            hints: Vec<u8>,
            told: $told,
        }

        impl $name {
            fn loaded() -> Self {
                let (mut ledger, mut cabinet) = ($program::Ledger::fresh(), $program::Cabinet::fresh());
                assert_eq!((ledger.load(TIME), cabinet.load(SLOT, TIME)), ($program::Reply::Done, $program::Reply::Done));
                let form = $program::Form { uses: [0; 16], working: 0, recovery: 0 };
                Self { ledger, cabinet, row: Vec::new(), form, buffer: Vec::new(), hints: vec![1; 4096], told: $told::Nothing }
            }

            /// A loaded side that has what a case does not measure: its row of certificates, its ACL's prepared form, a buffer.
            pub fn prepared(case: &Case) -> Self {
                let mut side = Self::loaded();
                let decoded = |&(hash, mechanism): &([u8; 20], u16)| $program::Certificate { hash, mechanism };
                side.row = case.files.row.iter().map(decoded).collect();
                side.form = $program::prepare(&case.files.acl).unwrap_or(side.form);
                side.buffer = vec![1; if case.uses > 1 { 8 * case.uses } else { crate::proved::LISTING_BYTES }];
                side
            }

            fn gate(&mut self, case: &Case, n: u32) -> $program::Reply {
                let f = &case.files;
                let (km0, acl, req, new, hints) = (&f.km0[..], &f.acl[..], &f.req[..], &f.new[..], &f.hints[..]);
                let (ledger, cabinet) = (&mut self.ledger, &mut self.cabinet);
                match case.call {
                    Call::Load => repeat(n, || black_box(&mut *ledger).load(black_box(TIME))),
                    Call::Clear => repeat(n, || black_box(&mut *ledger).clear(black_box(7))),
                    Call::SlotLoad => repeat(n, || black_box(&mut *cabinet).load(black_box(SLOT), black_box(TIME))),
                    Call::Request => repeat(n, || black_box(&mut *ledger).request(black_box(km0), black_box(acl), black_box(req))),
                    Call::SlotRequest => {
                        repeat(n, || black_box(&mut *cabinet).request(SLOT, black_box(km0), black_box(acl), black_box(req)))
                    }
                    Call::Narrow => repeat(n, || {
                        black_box(&mut *ledger).narrow(black_box(km0), black_box(acl), black_box(req), black_box(new), black_box(hints))
                    }),
                    Call::SlotNarrow => repeat(n, || {
                        let slot = black_box(SLOT);
                        black_box(&mut *cabinet).narrow(slot, black_box(km0), black_box(acl), black_box(req), black_box(new), black_box(hints))
                    }),
                    Call::Expand => {
                        repeat(n, || black_box(&mut *ledger).expand(black_box(km0), black_box(acl), black_box(req), black_box(new)))
                    }
                    Call::SlotExpand => {
                        repeat(n, || black_box(&mut *cabinet).expand(SLOT, black_box(km0), black_box(acl), black_box(req), black_box(new)))
                    }
                    _ => self.by_value(case, n),
                }
            }

            // Each call takes the ledger, or the cabinet, that the one before it returned.
            fn by_value(&mut self, case: &Case, n: u32) -> $program::Reply {
                let (km0, acl, req) = (&case.files.km0[..], &case.files.acl[..], &case.files.req[..]);
                let mut reply = $program::Reply::Done;
                if case.call == Call::RequestByValue {
                    let mut ledger = self.ledger.clone();
                    for _ in 0..n {
                        (ledger, reply) = $program::by_value::request(black_box(ledger), black_box(km0), black_box(acl), black_box(req));
                    }
                    self.ledger = ledger;
                } else {
                    let mut cabinet = self.cabinet.clone();
                    for _ in 0..n {
                        (cabinet, reply) = $program::by_value::cabinet_request(black_box(cabinet), SLOT, black_box(km0), black_box(acl), black_box(req));
                    }
                    self.cabinet = cabinet;
                }
                reply
            }

            fn run(&mut self, case: &Case, n: u32) -> $program::Ran {
                let (km0, acl, req) = (&case.files.km0[..], &case.files.acl[..], &case.files.req[..]);
                let (ledger, cabinet, row, form, buffer) = (&mut self.ledger, &mut self.cabinet, &self.row[..], self.form, &mut self.buffer[..]);
                match case.call {
                    Call::Run => repeat(n, || {
                        black_box(&mut *ledger).run(black_box(km0), black_box(acl), black_box(row), black_box(req), black_box(&mut *buffer))
                    }),
                    Call::SlotRun => repeat(n, || {
                        let cabinet = black_box(&mut *cabinet);
                        cabinet.run(SLOT, black_box(km0), black_box(acl), black_box(row), black_box(req), black_box(&mut *buffer))
                    }),
                    Call::SlotPreparedRun => repeat(n, || {
                        let cabinet = black_box(&mut *cabinet);
                        cabinet.prepared_run(SLOT, black_box(km0), black_box(acl), black_box(row), form, black_box(req), black_box(&mut *buffer))
                    }),
                    call => repeat(n, || {
                        let ledger = black_box(&mut *ledger);
                        if call == Call::LoadedRun {
                            let _ = black_box(ledger.load(TIME));
                        }
                        ledger.prepared_run(black_box(km0), black_box(acl), black_box(row), form, black_box(req), black_box(&mut *buffer))
                    }),
                }
            }
        }

        impl Side for $name {
            #[inline(never)]
            fn calls(&mut self, case: &Case, n: u32) {
                let f = &case.files;
                self.told = match case.call {
                    Call::Run | Call::PreparedRun | Call::LoadedRun | Call::SlotRun | Call::SlotPreparedRun => $told::Ran(self.run(case, n)),
                    Call::Prepare => $told::Form(repeat(n, || $program::prepare(black_box(&f.acl)))),
                    Call::Verdict => $told::Verdict(repeat(n, || $program::assess(black_box(&f.bundle), black_box(&f.acl)))),
                    Call::Trim => $told::Trimmed(repeat(n, || {
                        $program::trim(black_box(&f.bundle), black_box(&f.acl), black_box(&mut self.buffer), black_box(&mut self.hints))
                    })),
                    Call::Subject => $told::Subject(repeat(n, || {
                        $program::write_subject(black_box(4), black_box(4), black_box(&f.text), black_box(&mut self.buffer))
                    })),
                    Call::WriteListing => $told::Listed(repeat(n, || $program::write_listing(black_box(&f.acl), black_box(&mut self.buffer)))),
                    Call::ReadListing => $told::Listed(repeat(n, || $program::read_listing(black_box(&f.text), black_box(&mut self.buffer)))),
                    _ => $told::Reply(self.gate(case, n)),
                };
            }

            fn answer(&self) -> String {
                match &self.told {
                    $told::Nothing => String::new(),
                    $told::Reply(told) => format!("{told:?}"),
                    $told::Ran(told) => format!("{told:?} {}", ends(&self.buffer)),
                    $told::Form(told) => format!("{told:?}"),
                    $told::Verdict(told) => format!("{told:?}"),
                    $told::Trimmed(told) => format!("{told:?}"),
                    $told::Subject(told) => format!("{told:?}"),
                    $told::Listed(told) => format!("{told:?}"),
                }
            }

            fn state(&self) -> String {
                format!("{:?} {:?} {:?} {:?}", self.ledger, self.cabinet, self.buffer, self.hints)
            }
        }
    };
}

mod proved_side {
    use super::*;
    use crate::proved;
    side!(Proved, ProvedAnswer, proved);
}

mod ordinary_side {
    use super::*;
    use crate::ordinary;
    side!(Ordinary, OrdinaryAnswer, ordinary);
}

pub use ordinary_side::Ordinary;
pub use proved_side::Proved;
