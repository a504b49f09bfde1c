//! The calls of a replay script and their arguments, in the order in which they stand there.

use crate::acl::MOST_GROUPS;
use crate::ledger::COUNTERS;
use crate::text::TextKind;

pub type Bytes = Vec<u8>;

#[derive(Clone, Debug, PartialEq)]
pub enum Call {
    Fresh,
    Load {
        time: u64,
    },
    Clear {
        counter: u64,
    },
    Request {
        km0: Bytes,
        acl: Bytes,
        request: Bytes,
    },
    Narrow {
        km0: Bytes,
        acl: Bytes,
        request: Bytes,
        new_acl: Bytes,
        hints: Bytes,
    },
    Expand {
        km0: Bytes,
        acl: Bytes,
        request: Bytes,
        new_acl: Bytes,
    },
    Desk {
        bundle: Bytes,
        acl: Bytes,
    },
    Subject {
        certificate: u64,
        suite: u64,
        hashes: Bytes,
        buffer: Bytes,
    },
    WriteListing {
        acl: Bytes,
        buffer: Bytes,
    },
    ReadListing {
        text: Bytes,
        buffer: Bytes,
    },
    /// The text of a file of that kind, by its number.
    WriteText {
        kind: u64,
        file: Bytes,
        buffer: Bytes,
    },
    ReadText {
        kind: u64,
        text: Bytes,
        buffer: Bytes,
    },
    FreshCabinet,
    ClearShared {
        counter: u64,
    },
    /// A load, request, narrowing, expansion or run in a slot of the cabinet.
    InSlot {
        slot: u64,
        call: Box<Call>,
    },
    Batch(Batch),
    Prepare {
        acl: Bytes,
    },
    PreparedRun {
        form: Bytes,
        batch: Batch,
    },
    Trim {
        bundle: Bytes,
        acl: Bytes,
        acl_buffer: Bytes,
        hints_buffer: Bytes,
    },
    /// The place of a file's first fault, by the number of its kind.
    LocateFile {
        kind: u64,
        file: Bytes,
    },
    /// The place behind the refusal of a request, a narrowing, an expansion or the desk.
    Locate(Box<Call>),
    /// A host that restores a ledger: one count, or one named counter, becomes a number.
    SetCount {
        index: u64,
        value: u64,
    },
}

/// What a run is asked with, and its answer buffer.
#[derive(Clone, Debug, Default, PartialEq)]
pub struct Batch {
    pub km0: Bytes,
    pub acl: Bytes,
    pub row: Bytes,
    pub run: Bytes,
    pub buffer: Bytes,
}

impl Batch {
    fn arguments(&mut self) -> Vec<Argument<'_>> {
        vec![
            Argument::Bytes(FileKind::Km0, &mut self.km0),
            Argument::Bytes(FileKind::Acl, &mut self.acl),
            Argument::Bytes(FileKind::Row, &mut self.row),
            Argument::Bytes(FileKind::Run, &mut self.run),
            Argument::Bytes(FileKind::Buffer, &mut self.buffer),
        ]
    }
}

/// What the bytes of an argument hold.
#[derive(Clone, Copy, Debug, PartialEq)]
pub enum FileKind {
    Km0,
    Acl,
    Request,
    NewAcl,
    Hints,
    Bundle,
    Hashes,
    Text,
    /// Decoded certificates.
    Row,
    /// Request records.
    Run,
    /// Request records of a day.
    Requests,
    /// A prepared form.
    Form,
    /// A buffer as lent.
    Buffer,
}

impl FileKind {
    /// What a file holds that is to be written as a text of that kind; nothing known where there is
    /// no such kind.
    fn written_as(kind: u64) -> FileKind {
        match TextKind::of(kind) {
            Ok(TextKind::Acl) => FileKind::Acl,
            Ok(TextKind::Request) => FileKind::Request,
            Ok(TextKind::Requests) => FileKind::Requests,
            Ok(TextKind::Bundle) => FileKind::Bundle,
            Ok(TextKind::Hints) => FileKind::Hints,
            Err(_) => FileKind::Text,
        }
    }
}

/// The counts of the ledger's groups, and after them the named counters.
pub const TABLE_ENTRIES: u64 = (MOST_GROUPS + COUNTERS) as u64;

/// One argument of a call.
pub enum Argument<'a> {
    Number(&'a mut u64),
    Bytes(FileKind, &'a mut Bytes),
}

impl Call {
    pub fn letter(&self) -> char {
        match self {
            Call::Fresh => 'F',
            Call::Load { .. } => 'L',
            Call::Clear { .. } => 'C',
            Call::Request { .. } => 'R',
            Call::Narrow { .. } => 'N',
            Call::Expand { .. } => 'X',
            Call::Desk { .. } => 'D',
            Call::Subject { .. } => 'S',
            Call::WriteListing { .. } => 'W',
            Call::ReadListing { .. } => 'T',
            Call::WriteText { .. } => 'V',
            Call::ReadText { .. } => 'U',
            Call::FreshCabinet => 'f',
            Call::ClearShared { .. } => 'c',
            Call::InSlot { call, .. } => call.letter().to_ascii_lowercase(),
            Call::Batch(_) => 'B',
            Call::Prepare { .. } => 'P',
            Call::PreparedRun { .. } => 'Q',
            Call::Trim { .. } => 'M',
            Call::LocateFile { .. } => 'A',
            Call::Locate(call) => match **call {
                Call::Request { .. } => 'G',
                Call::Narrow { .. } => 'H',
                Call::Expand { .. } => 'I',
                _ => 'J',
            },
            Call::SetCount { .. } => 'K',
        }
    }

    /// The call of that letter with every number zero and every file empty.
    pub fn blank(letter: u8) -> Option<Call> {
        let none = Bytes::new;
        Some(match letter {
            b'F' => Call::Fresh,
            b'L' => Call::Load { time: 0 },
            b'C' => Call::Clear { counter: 0 },
            b'R' => Call::Request {
                km0: none(),
                acl: none(),
                request: none(),
            },
            b'N' => Call::Narrow {
                km0: none(),
                acl: none(),
                request: none(),
                new_acl: none(),
                hints: none(),
            },
            b'X' => Call::Expand {
                km0: none(),
                acl: none(),
                request: none(),
                new_acl: none(),
            },
            b'D' => Call::Desk {
                bundle: none(),
                acl: none(),
            },
            b'S' => Call::Subject {
                certificate: 0,
                suite: 0,
                hashes: none(),
                buffer: none(),
            },
            b'W' => Call::WriteListing {
                acl: none(),
                buffer: none(),
            },
            b'T' => Call::ReadListing {
                text: none(),
                buffer: none(),
            },
            b'V' => Call::WriteText {
                kind: 0,
                file: none(),
                buffer: none(),
            },
            b'U' => Call::ReadText {
                kind: 0,
                text: none(),
                buffer: none(),
            },
            b'f' => Call::FreshCabinet,
            b'c' => Call::ClearShared { counter: 0 },
            b'l' | b'r' | b'n' | b'x' | b'b' | b'q' => Call::InSlot {
                slot: 0,
                call: Box::new(Call::blank(letter.to_ascii_uppercase())?),
            },
            b'B' => Call::Batch(Batch::default()),
            b'P' => Call::Prepare { acl: none() },
            b'Q' => Call::PreparedRun {
                form: none(),
                batch: Batch::default(),
            },
            b'M' => Call::Trim {
                bundle: none(),
                acl: none(),
                acl_buffer: none(),
                hints_buffer: none(),
            },
            b'A' => Call::LocateFile {
                kind: 0,
                file: none(),
            },
            b'G' => Call::Locate(Box::new(Call::blank(b'R')?)),
            b'H' => Call::Locate(Box::new(Call::blank(b'N')?)),
            b'I' => Call::Locate(Box::new(Call::blank(b'X')?)),
            b'J' => Call::Locate(Box::new(Call::blank(b'D')?)),
            b'K' => Call::SetCount { index: 0, value: 0 },
            _ => return None,
        })
    }

    /// Whether a script may hold its numbers: the index of a count, and a value of 32 bits.
    pub fn numbers_fit(&self) -> bool {
        match self {
            Call::SetCount { index, value } => {
                *index < TABLE_ENTRIES && *value <= u64::from(u32::MAX)
            }
            _ => true,
        }
    }

    /// The arguments in the order in which a script has them.
    pub fn arguments(&mut self) -> Vec<Argument<'_>> {
        use Argument::{Bytes, Number};
        use FileKind::{Acl, Buffer, Bundle, Form, Hashes, Hints, Km0, NewAcl, Request, Text};
        match self {
            Call::Fresh | Call::FreshCabinet => Vec::new(),
            Call::Load { time } => vec![Number(time)],
            Call::Clear { counter } | Call::ClearShared { counter } => vec![Number(counter)],
            Call::Request { km0, acl, request } => {
                vec![Bytes(Km0, km0), Bytes(Acl, acl), Bytes(Request, request)]
            }
            Call::Narrow {
                km0,
                acl,
                request,
                new_acl,
                hints,
            } => vec![
                Bytes(Km0, km0),
                Bytes(Acl, acl),
                Bytes(Request, request),
                Bytes(NewAcl, new_acl),
                Bytes(Hints, hints),
            ],
            Call::Expand {
                km0,
                acl,
                request,
                new_acl,
            } => vec![
                Bytes(Km0, km0),
                Bytes(Acl, acl),
                Bytes(Request, request),
                Bytes(NewAcl, new_acl),
            ],
            Call::Desk { bundle, acl } => vec![Bytes(Bundle, bundle), Bytes(Acl, acl)],
            Call::Subject {
                certificate,
                suite,
                hashes,
                buffer,
            } => vec![
                Number(certificate),
                Number(suite),
                Bytes(Hashes, hashes),
                Bytes(Buffer, buffer),
            ],
            Call::WriteListing { acl, buffer } => vec![Bytes(Acl, acl), Bytes(Buffer, buffer)],
            Call::ReadListing { text, buffer } => vec![Bytes(Text, text), Bytes(Buffer, buffer)],
            Call::WriteText { kind, file, buffer } => {
                let file_kind = FileKind::written_as(*kind);
                vec![Number(kind), Bytes(file_kind, file), Bytes(Buffer, buffer)]
            }
            Call::ReadText { kind, text, buffer } => {
                vec![Number(kind), Bytes(Text, text), Bytes(Buffer, buffer)]
            }
            Call::InSlot { slot, call } => {
                let mut arguments = vec![Number(slot)];
                arguments.extend(call.arguments());
                arguments
            }
            Call::Batch(batch) => batch.arguments(),
            Call::Prepare { acl } => vec![Bytes(Acl, acl)],
            Call::PreparedRun { form, batch } => {
                let mut arguments = vec![Bytes(Form, form)];
                arguments.extend(batch.arguments());
                arguments
            }
            Call::Trim {
                bundle,
                acl,
                acl_buffer,
                hints_buffer,
            } => vec![
                Bytes(Bundle, bundle),
                Bytes(Acl, acl),
                Bytes(Buffer, acl_buffer),
                Bytes(Buffer, hints_buffer),
            ],
            Call::LocateFile { kind, file } => {
                let file_kind = FileKind::written_as(*kind);
                vec![Number(kind), Bytes(file_kind, file)]
            }
            Call::Locate(call) => call.arguments(),
            Call::SetCount { index, value } => vec![Number(index), Number(value)],
        }
    }
}
