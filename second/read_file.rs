//! Reads a file of any kind record by record, and finds its first fault.

use crate::bundle::BundleReader;
use crate::read_acl::AclReader;
use crate::record::{check_length, records, Record, Refusal};
use crate::replace::read_hint;
use crate::request::RequestReader;
use crate::text::TextKind;

/// Reads the records of one kind of file, one by one.
pub enum FileReader {
    Acl(AclReader),
    Request(RequestReader),
    Requests,
    Bundle(BundleReader),
    Hints,
}

impl FileReader {
    pub fn of(kind: TextKind) -> FileReader {
        match kind {
            TextKind::Acl => FileReader::Acl(AclReader::default()),
            TextKind::Request => FileReader::Request(RequestReader::taking(None)),
            TextKind::Requests => FileReader::Requests,
            TextKind::Bundle => FileReader::Bundle(BundleReader::default()),
            TextKind::Hints => FileReader::Hints,
        }
    }

    pub fn add(&mut self, record: Record) -> Result<(), Refusal> {
        match self {
            FileReader::Acl(reader) => reader.add(record),
            FileReader::Request(reader) => reader.add(record),
            // Each record is a request of its own.
            FileReader::Requests => {
                let mut alone = RequestReader::taking(None);
                alone.add(record)?;
                alone.end().map(|_| ())
            }
            FileReader::Bundle(reader) => reader.add(record),
            FileReader::Hints => read_hint(record).map(|_| ()),
        }
    }

    pub fn end(self) -> Result<(), Refusal> {
        match self {
            FileReader::Acl(reader) => reader.end().map(|_| ()),
            FileReader::Request(reader) => reader.end().map(|_| ()),
            FileReader::Bundle(reader) => reader.end().map(|_| ()),
            FileReader::Requests | FileReader::Hints => Ok(()),
        }
    }
}

/// The part of an input that is at fault.
#[derive(Clone, Copy, Debug, PartialEq)]
pub enum Part {
    Length = 1,
    Record = 2,
    /// A record is missing at the end.
    End = 3,
}

/// The first fault of an input. The end's index is the number of records.
#[derive(Clone, Copy, Debug, PartialEq)]
pub struct Fault {
    pub refusal: Refusal,
    pub part: Part,
    pub record: Option<usize>,
}

/// "Not whole records, or more than the kind's greatest number".
pub fn length_fault(kind: TextKind, file: &[u8]) -> Result<(), Fault> {
    check_length(file, kind.most_records()).map_err(Fault::of_length)
}

/// "The first record, from the first on, that has a fault in the state reached [...] else a fault at
/// the end (a record is missing)".
pub fn record_fault(mut reader: FileReader, file: &[u8]) -> Result<(), Fault> {
    let fault = |part, index| {
        move |refusal| Fault {
            refusal,
            part,
            record: Some(index),
        }
    };
    let mut number = 0;
    for record in records(file) {
        reader.add(record).map_err(fault(Part::Record, number))?;
        number += 1;
    }
    reader.end().map_err(fault(Part::End, number))
}

impl Fault {
    pub fn of_length(refusal: Refusal) -> Fault {
        Fault {
            refusal,
            part: Part::Length,
            record: None,
        }
    }
}
