//! Where a request, a narrowing or an expansion is at fault, and what breaks the rule by which it is
//! refused.

use crate::acl::{Acl, Group};
use crate::gate::{check_km0_length, grant, is_open};
use crate::ledger::Ledger;
use crate::place::{CallPlace, Input};
use crate::read_acl::read_acl;
use crate::read_file::{length_fault, record_fault, Fault, FileReader};
use crate::record::Refusal;
use crate::replace::{
    action_is_narrower, keeps_certification, limit_is_answered, read_hints, Hint,
};
use crate::request::{read_request, Request, RequestReader, EXPAND_ACL, REDUCE_ACL};
use crate::text::TextKind;

/// What breaks the rule by which a call is refused.
const THE_HINT: u8 = 1;
const THE_CERTIFIER: u8 = 2;
const A_LIMIT: u8 = 3;
const AN_ACTION: u8 = 4;
const A_LIMIT_IS_SPENT: u8 = 5;
const THE_COUNT_IS_FULL: u8 = 6;

/// What a call is lent: the files in the order in which their lengths are looked at, and then their
/// records.
struct Lent<'a> {
    km0: &'a [u8],
    files: &'a [(Input, &'a [u8])],
    /// The one use that a replacement takes.
    only_use: Option<u8>,
}

pub fn locate_request(ledger: &Ledger, km0: &[u8], acl: &[u8], request: &[u8]) -> CallPlace {
    let lent = Lent {
        km0,
        files: &[(Input::Acl, acl), (Input::Request, request)],
        only_use: None,
    };
    found(lent.granted(ledger, acl, request).map(|_| ()))
}

pub fn locate_narrow(
    ledger: &Ledger,
    km0: &[u8],
    acl: &[u8],
    request: &[u8],
    new_acl: &[u8],
    hints: &[u8],
) -> CallPlace {
    let lent = Lent {
        km0,
        files: &[
            (Input::Acl, acl),
            (Input::Request, request),
            (Input::NewAcl, new_acl),
            (Input::Hints, hints),
        ],
        only_use: Some(REDUCE_ACL),
    };
    let narrowed = lent.granted(ledger, acl, request).and_then(|old| {
        let (new, hints) = (read_acl(new_acl), read_hints(hints));
        check_narrowing(&old, &good(new), &good(hints))
    });
    found(narrowed)
}

pub fn locate_expand(
    ledger: &Ledger,
    km0: &[u8],
    acl: &[u8],
    request: &[u8],
    new_acl: &[u8],
) -> CallPlace {
    let lent = Lent {
        km0,
        files: &[
            (Input::Acl, acl),
            (Input::Request, request),
            (Input::NewAcl, new_acl),
        ],
        only_use: Some(EXPAND_ACL),
    };
    found(lent.granted(ledger, acl, request).map(|_| ()))
}

fn found(reply: Result<(), CallPlace>) -> CallPlace {
    reply.err().unwrap_or_default()
}

/// A file in which no fault was found.
fn good<T>(read: Result<T, Refusal>) -> T {
    read.unwrap_or_else(|refusal| unreachable!("a file without fault gives {refusal:?}"))
}

impl Lent<'_> {
    /// The refusals up to 7; the ACL where there is none.
    fn granted(&self, ledger: &Ledger, acl: &[u8], request: &[u8]) -> Result<Acl, CallPlace> {
        self.check_lengths()?;
        self.check_records()?;
        let acl = good(read_acl(acl));
        let (request, presented) = good(read_request(request, self.only_use));
        match grant(ledger, self.km0, &acl, &request, &presented) {
            Ok(_) => Ok(acl),
            Err(refusal) => Err(not_granted(refusal, &acl, ledger, &request)),
        }
    }

    /// "1: the first input of bad length in the order KM0, ACL, request, new ACL, hints".
    fn check_lengths(&self) -> Result<(), CallPlace> {
        check_km0_length(self.km0)
            .map_err(|refusal| CallPlace::of_fault(Input::Km0, Fault::of_length(refusal)))?;
        self.files.iter().try_for_each(|&(input, file)| {
            length_fault(kind_of(input), file).map_err(|fault| CallPlace::of_fault(input, fault))
        })
    }

    /// "The first input, in document 01's order, with a bad record or a bad end".
    fn check_records(&self) -> Result<(), CallPlace> {
        self.files.iter().try_for_each(|&(input, file)| {
            let reader = match input {
                Input::Request => FileReader::Request(RequestReader::taking(self.only_use)),
                _ => FileReader::of(kind_of(input)),
            };
            record_fault(reader, file).map_err(|fault| CallPlace::of_fault(input, fault))
        })
    }
}

fn kind_of(input: Input) -> TextKind {
    match input {
        Input::Km0 => unreachable!("KM0 is no file of records"),
        Input::Acl | Input::NewAcl => TextKind::Acl,
        Input::Request => TextKind::Request,
        Input::Hints => TextKind::Hints,
        Input::Bundle => TextKind::Bundle,
    }
}

/// "4, 5: [...] nothing more is named. 6: the group that the call names [...]. 7: [...] a limit is
/// spent [...]; where no limit is spent, its own count is full".
fn not_granted(refusal: Refusal, acl: &Acl, ledger: &Ledger, request: &Request) -> CallPlace {
    let named = CallPlace {
        refusal: refusal.number(),
        group: refusal.beside(),
        ..CallPlace::default()
    };
    let Refusal::Spent { nearest } = refusal else {
        return named;
    };
    let own_count = ledger.group_counts[nearest];
    let elapsed = request.time - ledger.load_time;
    let mut limits = acl.groups[nearest].limits.iter();
    let item = limits.position(|limit| !is_open(limit, own_count, elapsed, ledger));
    let reason = match item {
        Some(_) => A_LIMIT_IS_SPENT,
        None => THE_COUNT_IS_FULL,
    };
    CallPlace {
        reason,
        item,
        ..named
    }
}

/// The first new group that is not shown to be narrower and what breaks it; else a hint left over.
fn check_narrowing(old: &Acl, new: &Acl, hints: &[Hint]) -> Result<(), CallPlace> {
    for (index, group) in new.groups.iter().enumerate() {
        check_group(old, group, hints, index)
            .map_err(|(reason, item)| not_narrower(index, reason, item))?;
    }
    if hints.len() > new.groups.len() {
        return Err(not_narrower(new.groups.len(), THE_HINT, None));
    }
    Ok(())
}

fn not_narrower(group: usize, reason: u8, item: Option<usize>) -> CallPlace {
    CallPlace {
        refusal: Refusal::NotNarrower.number(),
        group: Some(group),
        reason,
        item,
        ..CallPlace::default()
    }
}

/// One new group against its hint: the hint itself, then the certifier, then each limit of
/// the source, then each action of the new group.
fn check_group(
    old: &Acl,
    new: &Group,
    hints: &[Hint],
    index: usize,
) -> Result<(), (u8, Option<usize>)> {
    let (hint, source) = named_source(old, new, hints, index).ok_or((THE_HINT, None))?;
    if !keeps_certification(source, new) {
        return Err((THE_CERTIFIER, None));
    }
    let unanswered = |limit| !limit_is_answered(limit, &new.limits);
    if let Some(item) = source.limits.iter().position(unanswered) {
        return Err((A_LIMIT, Some(item)));
    }
    let mut actions = new.actions.iter().zip(hint.actions);
    let wider = actions.position(|(action, named)| {
        !action_is_narrower(action, &source.actions[usize::from(named)])
    });
    wider.map_or(Ok(()), |item| Err((AN_ACTION, Some(item))))
}

/// The hint of a new group and its source: there is one, its source is above the one before, it names
/// a group and, for each action of the new group, an action of it; the other bytes are zero.
fn named_source<'a>(
    old: &'a Acl,
    new: &Group,
    hints: &'a [Hint],
    index: usize,
) -> Option<(&'a Hint, &'a Group)> {
    let hint = hints.get(index)?;
    let rises = index == 0 || hints[index - 1].source < hint.source;
    let source = old.groups.get(usize::from(hint.source)).filter(|_| rises)?;
    let (used, unused) = hint.actions.split_at(new.actions.len());
    let names_actions = used
        .iter()
        .all(|&byte| usize::from(byte) < source.actions.len());
    let zero = unused.iter().all(|&byte| byte == 0);
    (names_actions && zero).then_some((hint, source))
}

#[cfg(test)]
mod tests;
