//! What may stand after the last call of a script to end the run with a stop.

use crate::call::{Argument, Bytes, Call, FileKind, TABLE_ENTRIES};
use crate::generate::Generator;
use crate::script::{call_bytes, length_places, LONGEST_BYTES};

impl Generator {
    /// What ends the run: a cut call, an unknown byte or a length that is too great.
    pub fn stopping_end(&mut self) -> Bytes {
        let letters: Vec<u8> = self
            .kinds
            .iter()
            .copied()
            .filter(|letter| !matches!(letter, b'F' | b'f'))
            .collect();
        if letters.is_empty() {
            return self.unknown_byte();
        }
        let letter = self.maker.random.pick(&letters);
        let (call, _) = self.make_call(letter);
        match &call {
            Call::Batch(_) | Call::PreparedRun { .. } => return self.broken_run(call),
            Call::InSlot { call: inner, .. }
                if matches!(**inner, Call::Batch(_) | Call::PreparedRun { .. }) =>
            {
                return self.broken_run(call)
            }
            Call::SetCount { .. } => return self.no_such_count(),
            _ => {}
        }
        match self.seed / 16 % 3 {
            0 => self.cut_call(&call),
            1 => self.unknown_byte(),
            _ => self.too_long_call(&call),
        }
    }

    /// A run whose row is not of whole entries, or whose form is too long or too short: whether it
    /// stops there or after the last argument, it stops.
    fn broken_run(&mut self, mut call: Call) -> Bytes {
        for argument in call.arguments() {
            match argument {
                Argument::Bytes(FileKind::Form, form) => {
                    let length = self.maker.random.pick(&[0, 143, 144, 145, 152]);
                    form.resize(length, 0);
                }
                Argument::Bytes(FileKind::Row, row) => row.push(1),
                _ => {}
            }
        }
        [call_bytes(&call), b"FF".to_vec()].concat()
    }

    /// No index of a count, or a value of more than 32 bits.
    fn no_such_count(&mut self) -> Bytes {
        let (index, value) = self.maker.random.pick(&[
            (TABLE_ENTRIES, 0),
            (u64::MAX, 1),
            (1 << 32, 1),
            (0, 1 << 32),
            (64, u64::MAX),
        ]);
        [call_bytes(&Call::SetCount { index, value }), b"FF".to_vec()].concat()
    }

    fn cut_call(&mut self, call: &Call) -> Bytes {
        let mut bytes = call_bytes(call);
        let length = self.maker.random.between(1, bytes.len() as u64 - 1) as usize;
        bytes.truncate(length);
        bytes
    }

    /// A byte that is no letter of a call, or a letter that this script may not have; then two
    /// bytes more. For a program that knows the letter the script then ends inside a call, which is
    /// a stop as well.
    fn unknown_byte(&mut self) -> Bytes {
        let is_unknown = |byte: &u8| !self.kinds.contains(byte);
        let choices: Vec<u8> = b"\x00\n 1EdOYZs\x80\xffLCRNXDSWTVUlcrnxBPQMbqAGHIJK"
            .iter()
            .copied()
            .filter(is_unknown)
            .collect();
        vec![self.maker.random.pick(&choices), b'F', b'F']
    }

    /// One length of the call over the greatest, and as many bytes after it as would fill the least such
    /// length.
    fn too_long_call(&mut self, call: &Call) -> Bytes {
        let places = length_places(call);
        if places.is_empty() {
            return self.cut_call(call);
        }
        let place = self.maker.random.pick(&places);
        let least = LONGEST_BYTES as u32 + 1;
        let length = self
            .maker
            .random
            .pick(&[least, least, 0x0100_0000, u32::MAX]);
        let mut bytes = call_bytes(call);
        bytes.truncate(place);
        bytes.extend(length.to_be_bytes());
        bytes.resize(place + 4 + LONGEST_BYTES + 300, 0);
        bytes
    }
}
