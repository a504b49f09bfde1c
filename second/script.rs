//! Replay scripts: reading and writing calls.

use std::io::{self, ErrorKind, Read, Write};

use crate::batch::ROW_ENTRY_LENGTH;
use crate::call::{Argument, Bytes, Call, FileKind};
use crate::prepare::FORM_LENGTH;

/// The letters of all calls.
pub const ALL_KINDS: &str = "FLCRNXDSWTVUflcrnxBPQMbqAGHIJK";
/// "Bytes are a 4-byte big-endian length and then that many bytes, at most [...] 262,144".
pub const LONGEST_BYTES: usize = 262_144;

/// What stands next in a script.
#[derive(Debug, PartialEq)]
pub enum Next {
    Call(Call),
    /// "A script that ends inside a call, an unknown byte or a length over the greatest ends the run."
    Stop,
    End,
}

/// Why the arguments of a call could not be read.
enum Trouble {
    Stop,
    Failed(io::Error),
}

impl From<io::Error> for Trouble {
    fn from(error: io::Error) -> Trouble {
        match error.kind() {
            ErrorKind::UnexpectedEof => Trouble::Stop,
            _ => Trouble::Failed(error),
        }
    }
}

/// Reads the next call; letters outside `kinds` are unknown bytes.
pub fn read_call(input: &mut impl Read, kinds: &str) -> io::Result<Next> {
    let mut letter = [0];
    match input.read_exact(&mut letter) {
        Err(error) if error.kind() == ErrorKind::UnexpectedEof => return Ok(Next::End),
        other => other?,
    }
    if !kinds.as_bytes().contains(&letter[0]) {
        return Ok(Next::Stop);
    }
    match read_arguments(input, letter[0]) {
        Ok(call) => Ok(Next::Call(call)),
        Err(Trouble::Stop) => Ok(Next::Stop),
        Err(Trouble::Failed(error)) => Err(error),
    }
}

fn read_arguments(input: &mut impl Read, letter: u8) -> Result<Call, Trouble> {
    let mut call = Call::blank(letter).ok_or(Trouble::Stop)?;
    for argument in call.arguments() {
        match argument {
            Argument::Number(number) => *number = read_number(input)?,
            Argument::Bytes(kind, bytes) => {
                *bytes = read_bytes(input)?;
                if !length_fits(kind, bytes.len()) {
                    return Err(Trouble::Stop);
                }
            }
        }
    }
    if call.numbers_fit() {
        Ok(call)
    } else {
        Err(Trouble::Stop)
    }
}

/// "A length that is no multiple of 22 is a `K stop`", for a row; "any other length of a form is a
/// `K stop`".
fn length_fits(kind: FileKind, length: usize) -> bool {
    match kind {
        FileKind::Row => length % ROW_ENTRY_LENGTH == 0,
        FileKind::Form => length == FORM_LENGTH,
        _ => true,
    }
}

fn read_number(input: &mut impl Read) -> Result<u64, Trouble> {
    let mut bytes = [0; 8];
    input.read_exact(&mut bytes)?;
    Ok(u64::from_be_bytes(bytes))
}

fn read_bytes(input: &mut impl Read) -> Result<Bytes, Trouble> {
    let mut length = [0; 4];
    input.read_exact(&mut length)?;
    let length = u32::from_be_bytes(length) as usize;
    if length > LONGEST_BYTES {
        return Err(Trouble::Stop);
    }
    let mut bytes = vec![0; length];
    input.read_exact(&mut bytes)?;
    Ok(bytes)
}

/// The bytes of one call as they stand in a script.
pub fn call_bytes(call: &Call) -> Bytes {
    let mut script = vec![call.letter() as u8];
    for argument in call.clone().arguments() {
        match argument {
            Argument::Number(number) => script.extend(number.to_be_bytes()),
            Argument::Bytes(_, bytes) => {
                script.extend((bytes.len() as u32).to_be_bytes());
                script.extend(bytes.iter());
            }
        }
    }
    script
}

/// Where the lengths of a call's byte arguments stand in its bytes.
pub fn length_places(call: &Call) -> Vec<usize> {
    let mut places = Vec::new();
    let mut place = 1;
    for argument in call.clone().arguments() {
        match argument {
            Argument::Number(_) => place += 8,
            Argument::Bytes(_, bytes) => {
                places.push(place);
                place += 4 + bytes.len();
            }
        }
    }
    places
}

pub fn write_call(output: &mut impl Write, call: &Call) -> io::Result<()> {
    output.write_all(&call_bytes(call))
}

#[cfg(test)]
mod tests {
    use super::*;
    use crate::call::Batch;

    fn narrow_call() -> Call {
        let [km0, acl, request, new_acl, hints] =
            [20, 64, 65, 0, 3].map(|length| vec![length as u8; length]);
        Call::Narrow {
            km0,
            acl,
            request,
            new_acl,
            hints,
        }
    }

    #[test]
    fn what_is_written_is_read_back() {
        let subject = Call::Subject {
            certificate: u64::MAX,
            suite: 2,
            hashes: vec![1; 60],
            buffer: Vec::new(),
        };
        let calls = [
            Call::Fresh,
            Call::Load { time: 1 << 40 },
            narrow_call(),
            subject,
            Call::WriteListing {
                acl: vec![1; 64],
                buffer: vec![2; 7],
            },
            Call::ReadListing {
                text: b"group\n".to_vec(),
                buffer: vec![3; 64],
            },
            Call::WriteText {
                kind: 9,
                file: vec![4; 64],
                buffer: vec![5; 7],
            },
            Call::ReadText {
                kind: 1,
                text: b"use Sign time 0\n".to_vec(),
                buffer: vec![6; 64],
            },
            Call::FreshCabinet,
            Call::ClearShared { counter: 8 },
            Call::InSlot {
                slot: 9,
                call: Box::new(narrow_call()),
            },
        ];
        let script: Bytes = calls.iter().flat_map(call_bytes).collect();
        let mut input = &script[..];
        for call in calls {
            assert_eq!(read_call(&mut input, ALL_KINDS).unwrap(), Next::Call(call));
        }
        assert_eq!(read_call(&mut input, ALL_KINDS).unwrap(), Next::End);
    }

    #[test]
    fn a_cut_call_stops() {
        let script = call_bytes(&narrow_call());
        for length in 1..script.len() {
            assert_eq!(
                read_call(&mut &script[..length], ALL_KINDS).unwrap(),
                Next::Stop
            );
        }
    }

    #[test]
    fn unknown_bytes_and_long_lengths_stop() {
        assert_eq!(read_call(&mut &b"d"[..], ALL_KINDS).unwrap(), Next::Stop);
        assert_eq!(read_call(&mut &b"F"[..], "LR").unwrap(), Next::Stop);
        let longest = Call::Desk {
            bundle: vec![0; LONGEST_BYTES],
            acl: Vec::new(),
        };
        let mut script = call_bytes(&longest);
        assert_eq!(
            read_call(&mut &script[..], ALL_KINDS).unwrap(),
            Next::Call(longest)
        );
        script[4] = 1;
        assert_eq!(read_call(&mut &script[..], ALL_KINDS).unwrap(), Next::Stop);
    }

    #[test]
    fn rows_and_forms_have_their_lengths() {
        let batch = |length| {
            call_bytes(&Call::Batch(Batch {
                row: vec![1; length],
                ..Batch::default()
            }))
        };
        let next = |script: Bytes| read_call(&mut &script[..], ALL_KINDS).unwrap();
        assert!(matches!(next(batch(0)), Next::Call(_)));
        assert!(matches!(next(batch(44)), Next::Call(_)));
        assert_eq!(next(batch(43)), Next::Stop);
        for (length, known) in [(143, false), (144, true), (145, false)] {
            let script = call_bytes(&Call::PreparedRun {
                form: vec![0; length],
                batch: Batch::default(),
            });
            assert_eq!(matches!(next(script), Next::Call(_)), known);
        }
    }

    #[test]
    fn every_letter_has_its_call() {
        for letter in ALL_KINDS.chars() {
            let call = Call::blank(letter as u8).unwrap();
            assert_eq!(call.letter(), letter);
        }
    }

    #[test]
    fn places_of_lengths() {
        assert_eq!(length_places(&narrow_call()), [1, 25, 93, 162, 166]);
        let subject = Call::blank(b'S').unwrap();
        assert_eq!(length_places(&subject), [17, 21]);
    }
}
