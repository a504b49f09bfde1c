//! Makes the calls of a script: their answers, and what is carried from call to call.

use crate::batch::{batch, Run};
use crate::cabinet::{check_slot, Cabinet};
use crate::call::{Batch, Call};
use crate::desk::{attest, Verdict};
use crate::gate;
use crate::ledger::Ledger;
use crate::listing::write_listing;
use crate::locate_call::{locate_expand, locate_narrow, locate_request};
use crate::locate_verdict::locate_verdict;
use crate::place::{locate_file, Place};
use crate::prepare::{form_bytes, prepare, prepared_run, Form};
use crate::read_listing::read_listing;
use crate::read_text::read_text;
use crate::record::{hex, Refusal};
use crate::replace::{expand, narrow};
use crate::subject::write_subject;
use crate::text::write_text;
use crate::trim::trim;

#[derive(Clone, Copy, Debug, PartialEq)]
pub enum Answer {
    Done,
    Permit(usize),
    Refuse(Refusal),
    Desk(Verdict),
    Length(usize),
    Form(Form),
    /// Of a trimmed ACL and its hints.
    Lengths(usize, usize),
    Place(Place),
}

/// What a script carries from call to call.
pub struct State {
    pub ledger: Ledger,
    pub cabinet: Cabinet,
}

impl State {
    pub fn fresh() -> State {
        State {
            ledger: Ledger::fresh(),
            cabinet: Cabinet::fresh(),
        }
    }

    /// Makes one call. The state changes only where the call is not refused; what is written goes
    /// into the call's own buffer.
    pub fn answer(&mut self, call: &mut Call) -> Answer {
        match call {
            Call::FreshCabinet => done(&mut self.cabinet, Ok(Cabinet::fresh())),
            Call::ClearShared { counter } => {
                let reply = self.cabinet.cleared(*counter);
                done(&mut self.cabinet, reply)
            }
            Call::InSlot { slot, call } => match check_slot(*slot) {
                Ok(place) => {
                    let mut ledger = self.cabinet.ledger(place);
                    let answer = answer_call(&mut ledger, call);
                    self.cabinet = self.cabinet.with_ledger(place, ledger);
                    answer
                }
                Err(refusal) => Answer::Refuse(refusal),
            },
            _ => answer_call(&mut self.ledger, call),
        }
    }
}

/// Makes one call of those that know of no cabinet.
pub fn answer_call(ledger: &mut Ledger, call: &mut Call) -> Answer {
    match call {
        Call::Fresh => done(ledger, Ok(Ledger::fresh())),
        Call::Load { time } => done(ledger, Ok(ledger.loaded(*time))),
        Call::Clear { counter } => done(ledger, ledger.cleared(*counter)),
        Call::Request { km0, acl, request } => {
            permit(ledger, gate::request(ledger, km0, acl, request))
        }
        Call::Narrow {
            km0,
            acl,
            request,
            new_acl,
            hints,
        } => permit(ledger, narrow(ledger, km0, acl, request, new_acl, hints)),
        Call::Expand {
            km0,
            acl,
            request,
            new_acl,
        } => permit(ledger, expand(ledger, km0, acl, request, new_acl)),
        Call::Desk { bundle, acl } => attest(bundle, acl).map_or_else(Answer::Refuse, Answer::Desk),
        Call::Subject {
            certificate,
            suite,
            hashes,
            buffer,
        } => length(write_subject(*certificate, *suite, hashes, buffer)),
        Call::WriteListing { acl, buffer } => length(write_listing(acl, buffer)),
        Call::ReadListing { text, buffer } => length(read_listing(text, buffer)),
        Call::WriteText { kind, file, buffer } => length(write_text(*kind, file, buffer)),
        Call::ReadText { kind, text, buffer } => length(read_text(*kind, text, buffer)),
        Call::FreshCabinet | Call::ClearShared { .. } | Call::InSlot { .. } => {
            unreachable!("the cabinet's own calls")
        }
        Call::Batch(asked) => {
            let (run, buffer) = run_of(asked);
            run_length(ledger, batch(ledger, run, buffer))
        }
        Call::Prepare { acl } => prepare(acl).map_or_else(Answer::Refuse, Answer::Form),
        Call::PreparedRun { form, batch } => {
            let (run, buffer) = run_of(batch);
            run_length(ledger, prepared_run(ledger, form, run, buffer))
        }
        Call::Trim {
            bundle,
            acl,
            acl_buffer,
            hints_buffer,
        } => match trim(bundle, acl, acl_buffer, hints_buffer) {
            Ok(Ok((acl_length, hints_length))) => Answer::Lengths(acl_length, hints_length),
            Ok(Err(step)) => Answer::Desk(Verdict::Fail(step)),
            Err(refusal) => Answer::Refuse(refusal),
        },
        Call::LocateFile { kind, file } => Answer::Place(Place::File(locate_file(*kind, file))),
        Call::Locate(call) => Answer::Place(place_of(ledger, call)),
        Call::SetCount { index, value } => {
            let restored = ledger.with_entry(*index as usize, *value as u32);
            done(ledger, Ok(restored))
        }
    }
}

/// The place behind the refusal that the call would get.
fn place_of(ledger: &Ledger, call: &Call) -> Place {
    match call {
        Call::Request { km0, acl, request } => {
            Place::Call(locate_request(ledger, km0, acl, request))
        }
        Call::Narrow {
            km0,
            acl,
            request,
            new_acl,
            hints,
        } => Place::Call(locate_narrow(ledger, km0, acl, request, new_acl, hints)),
        Call::Expand {
            km0,
            acl,
            request,
            new_acl,
        } => Place::Call(locate_expand(ledger, km0, acl, request, new_acl)),
        Call::Desk { bundle, acl } => Place::Verdict(locate_verdict(bundle, acl)),
        _ => unreachable!("no places are asked for this call"),
    }
}

fn run_of(asked: &mut Batch) -> (Run<'_>, &mut [u8]) {
    let run = Run {
        km0: &asked.km0,
        acl: &asked.acl,
        row: &asked.row,
        records: &asked.run,
    };
    (run, &mut asked.buffer)
}

/// A run's number of answers; its ledger goes on.
fn run_length(ledger: &mut Ledger, reply: Result<(usize, Ledger), Refusal>) -> Answer {
    match permit(ledger, reply) {
        Answer::Permit(number) => Answer::Length(number),
        refused => refused,
    }
}

fn length(reply: Result<usize, Refusal>) -> Answer {
    reply.map_or_else(Answer::Refuse, Answer::Length)
}

fn done<T>(before: &mut T, reply: Result<T, Refusal>) -> Answer {
    match reply {
        Ok(after) => {
            *before = after;
            Answer::Done
        }
        Err(refusal) => Answer::Refuse(refusal),
    }
}

fn permit(ledger: &mut Ledger, reply: Result<(usize, Ledger), Refusal>) -> Answer {
    match reply {
        Ok((place, after)) => {
            *ledger = after;
            Answer::Permit(place)
        }
        Err(refusal) => Answer::Refuse(refusal),
    }
}

impl Answer {
    /// The answer's words, without ledger or buffer.
    pub fn words(self) -> String {
        match self {
            Answer::Done => "done".to_string(),
            Answer::Permit(place) => format!("permit {place}"),
            Answer::Refuse(refusal) => match refusal.beside() {
                Some(beside) => format!("refuse {} {beside}", refusal.number()),
                None => format!("refuse {}", refusal.number()),
            },
            Answer::Desk(Verdict::AcceptFirst) => "accept 1".to_string(),
            Answer::Desk(Verdict::AcceptSecond {
                protection,
                recoverable,
            }) => {
                let word = if recoverable { "yes" } else { "no" };
                format!("accept 2 protection {protection} recoverable {word}")
            }
            Answer::Desk(Verdict::Fail(step)) => format!("fail {step}"),
            Answer::Length(length) => format!("length {length}"),
            Answer::Lengths(acl, hints) => format!("lengths {acl} {hints}"),
            Answer::Form(form) => format!("form {}", hex(&form_bytes(&form))),
            Answer::Place(place) => place.words(),
        }
    }

    /// The answer's kind: permits of any group, results of any length and refusals of one number
    /// are one kind each.
    pub fn kind(self) -> String {
        match self {
            Answer::Permit(_) => "permit".to_string(),
            Answer::Length(_) => "length".to_string(),
            Answer::Form(_) => "form".to_string(),
            Answer::Place(place) => place.kind(),
            Answer::Lengths(..) => "lengths".to_string(),
            Answer::Refuse(refusal) => format!("refuse {}", refusal.number()),
            _ => self.words(),
        }
    }
}
