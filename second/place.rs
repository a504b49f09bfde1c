//! Where the first fault is: what a file, a call or a verdict is answered with beside its number.
//! What is not named is `None`, all ones in the library's answers.

use crate::read_file::{length_fault, record_fault, Fault, FileReader};
use crate::text::TextKind;

/// What is at fault in a file.
#[derive(Clone, Copy, Debug, Default, PartialEq)]
pub struct FilePlace {
    pub refusal: u8,
    pub part: u8,
    pub record: Option<usize>,
}

/// What is at fault in a call, or breaks the rule by which it is refused.
#[derive(Clone, Copy, Debug, Default, PartialEq)]
pub struct CallPlace {
    pub refusal: u8,
    pub input: u8,
    pub part: u8,
    pub record: Option<usize>,
    pub group: Option<usize>,
    pub reason: u8,
    pub item: Option<usize>,
}

/// What is at fault in the desk's inputs, or fails its step.
#[derive(Clone, Copy, Debug, Default, PartialEq)]
pub struct VerdictPlace {
    pub refusal: u8,
    /// The failing step's number in the order of the steps, from 1.
    pub step: u8,
    pub input: u8,
    pub part: u8,
    pub record: Option<usize>,
    pub what: u8,
    pub number: u8,
    pub group: Option<usize>,
    pub action: Option<usize>,
    pub permission: Option<usize>,
}

#[derive(Clone, Copy, Debug, PartialEq)]
pub enum Place {
    File(FilePlace),
    Call(CallPlace),
    Verdict(VerdictPlace),
}

/// The inputs of calls: "0 none, 1 KM0, 2 ACL, 3 request, 4 new ACL, 5 hints", 6 the bundle.
#[derive(Clone, Copy, Debug, PartialEq)]
pub enum Input {
    Km0 = 1,
    Acl = 2,
    Request = 3,
    NewAcl = 4,
    Hints = 5,
    Bundle = 6,
}

/// The place of a file's first fault. An unknown kind is refused with 10, as for texts.
pub fn locate_file(kind: u64, file: &[u8]) -> FilePlace {
    let kind = match TextKind::of(kind) {
        Ok(kind) => kind,
        Err(refusal) => {
            return FilePlace {
                refusal: refusal.number(),
                ..FilePlace::default()
            }
        }
    };
    let read = length_fault(kind, file).and_then(|()| record_fault(FileReader::of(kind), file));
    match read {
        Ok(()) => FilePlace::default(),
        Err(fault) => FilePlace {
            refusal: fault.refusal.number(),
            part: fault.part as u8,
            record: fault.record,
        },
    }
}

impl CallPlace {
    pub fn of_fault(input: Input, fault: Fault) -> CallPlace {
        CallPlace {
            refusal: fault.refusal.number(),
            input: input as u8,
            part: fault.part as u8,
            record: fault.record,
            ..CallPlace::default()
        }
    }
}

impl VerdictPlace {
    pub fn of_fault(input: Input, fault: Fault) -> VerdictPlace {
        VerdictPlace {
            refusal: fault.refusal.number(),
            input: input as u8,
            part: fault.part as u8,
            record: fault.record,
            ..VerdictPlace::default()
        }
    }
}

fn word(number: Option<usize>) -> String {
    number.map_or("-".to_string(), |number| number.to_string())
}

impl Place {
    /// All numbers of the answer in their order; `-` for what is all ones.
    pub fn words(&self) -> String {
        let plain = |number: u8| number.to_string();
        let numbers = match self {
            Place::File(at) => vec![plain(at.refusal), plain(at.part), word(at.record)],
            Place::Call(at) => vec![
                plain(at.refusal),
                plain(at.input),
                plain(at.part),
                word(at.record),
                word(at.group),
                plain(at.reason),
                word(at.item),
            ],
            Place::Verdict(at) => vec![
                plain(at.refusal),
                plain(at.step),
                plain(at.input),
                plain(at.part),
                word(at.record),
                plain(at.what),
                plain(at.number),
                word(at.group),
                word(at.action),
                word(at.permission),
            ],
        };
        format!("place {}", numbers.join(" "))
    }

    /// The answer's kind: its numbers without records, groups, actions and items.
    pub fn kind(&self) -> String {
        match self {
            Place::File(at) => format!("place {} part {}", at.refusal, at.part),
            Place::Call(at) => format!(
                "place {} input {} part {} reason {}",
                at.refusal, at.input, at.part, at.reason
            ),
            Place::Verdict(at) => format!(
                "place {} step {} input {} part {} what {} number {} permission {}",
                at.refusal,
                at.step,
                at.input,
                at.part,
                at.what,
                at.number,
                word(at.permission)
            ),
        }
    }
}

#[cfg(test)]
mod tests;
