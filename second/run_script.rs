//! Answers a whole script, one line for each call, or counts the answers by their kind.

use std::collections::BTreeMap;
use std::fmt::Write as _;
use std::io::{self, Read, Write};

use crate::answer::{Answer, State};
use crate::cabinet::{check_slot, Cabinet};
use crate::call::Call;
use crate::ledger::Ledger;
use crate::record::hex;
use crate::script::{read_call, Next};

/// Answers a whole script.
pub fn answer_script(
    input: &mut impl Read,
    output: &mut impl Write,
    kinds: &str,
) -> io::Result<()> {
    let mut state = State::fresh();
    for number in 1.. {
        match read_call(input, kinds)? {
            Next::Call(mut call) => {
                let answer = state.answer(&mut call);
                writeln!(output, "{}", answer_line(number, &call, answer, &state))?;
            }
            Next::Stop => {
                writeln!(output, "{number} stop")?;
                break;
            }
            Next::End => break,
        }
    }
    output.flush()
}

/// Counts the answers of a script by call letter and kind: one line "COUNT LETTER KIND" each.
pub fn tally_script(input: &mut impl Read, output: &mut impl Write, kinds: &str) -> io::Result<()> {
    let mut state = State::fresh();
    let mut tally: BTreeMap<String, u64> = BTreeMap::new();
    loop {
        let name = match read_call(input, kinds)? {
            Next::Call(mut call) => {
                let answer = state.answer(&mut call);
                format!("{} {}", call.letter(), answer.kind())
            }
            Next::Stop => "- stop".to_string(),
            Next::End => break,
        };
        let stopped = name == "- stop";
        *tally.entry(name).or_insert(0) += 1;
        if stopped {
            break;
        }
    }
    for (name, count) in tally {
        writeln!(output, "{count} {name}")?;
    }
    output.flush()
}

/// One line of output, without its newline.
fn answer_line(number: u64, call: &Call, answer: Answer, state: &State) -> String {
    let mut line = format!("{number} {}", answer.words());
    match call {
        Call::Desk { .. } | Call::Prepare { .. } | Call::LocateFile { .. } | Call::Locate(_) => {}
        Call::Subject { buffer, .. }
        | Call::WriteListing { buffer, .. }
        | Call::ReadListing { buffer, .. }
        | Call::WriteText { buffer, .. }
        | Call::ReadText { buffer, .. } => add_hex(&mut line, buffer),
        Call::Trim {
            acl_buffer,
            hints_buffer,
            ..
        } => {
            add_hex(&mut line, acl_buffer);
            add_hex(&mut line, hints_buffer);
        }
        Call::Batch(batch) | Call::PreparedRun { batch, .. } => {
            add_hex(&mut line, &batch.buffer);
            add_ledger(&mut line, &state.ledger);
        }
        Call::FreshCabinet | Call::ClearShared { .. } => {
            add_counters(&mut line, &state.cabinet.counters)
        }
        Call::InSlot { slot, call } => {
            if let Call::Batch(batch) | Call::PreparedRun { batch, .. } = &**call {
                add_hex(&mut line, &batch.buffer);
            }
            add_slot(&mut line, *slot, &state.cabinet);
        }
        _ => add_ledger(&mut line, &state.ledger),
    }
    line
}

fn add_hex(line: &mut String, bytes: &[u8]) {
    line.push(' ');
    line.push_str(&hex(bytes));
}

/// The slot that was called, where there is one, and the counters that the slots share.
fn add_slot(line: &mut String, slot: u64, cabinet: &Cabinet) {
    match check_slot(slot) {
        Ok(place) => {
            let _ = write!(line, " slot {place}");
            add_ledger(line, &cabinet.ledger(place));
        }
        Err(_) => add_counters(line, &cabinet.counters),
    }
}

/// " load T last T counts I:V I:V counters I:V with only the entries that are not zero".
fn add_ledger(line: &mut String, ledger: &Ledger) {
    let _ = write!(
        line,
        " load {} last {} counts",
        ledger.load_time, ledger.last_time
    );
    add_entries(line, &ledger.group_counts);
    add_counters(line, &ledger.counters);
}

fn add_counters(line: &mut String, counters: &[u32]) {
    line.push_str(" counters");
    add_entries(line, counters);
}

fn add_entries(line: &mut String, entries: &[u32]) {
    for (place, value) in entries.iter().enumerate().filter(|(_, &value)| value != 0) {
        let _ = write!(line, " {place}:{value}");
    }
}

#[cfg(test)]
mod tests {
    use super::*;
    use crate::acl::{Acl, Action, Group, Limit, Sort};
    use crate::call::Batch;
    use crate::encode;
    use crate::prepare::{form_bytes, prepare};
    use crate::request::{Asked, Presented, Request};
    use crate::script::{call_bytes, ALL_KINDS};

    /// No use per load.
    const LIMIT_OF_NONE: Limit = Limit {
        sort: Sort::UsesPerLoad,
        maximum: 0,
    };

    fn answers(script: &[u8], kinds: &str) -> String {
        let mut output = Vec::new();
        answer_script(&mut &script[..], &mut output, kinds).unwrap();
        String::from_utf8(output).unwrap()
    }

    fn sign(limits: &[Limit], time: u64) -> Call {
        let group = |limits| Group {
            limits,
            actions: vec![Action::OpPermissions(0x10)],
            ..Group::default()
        };
        let groups = match limits {
            [] => vec![group(Vec::new())],
            _ => limits.iter().map(|&limit| group(vec![limit])).collect(),
        };
        let request = encode::request(
            &Request {
                asked: Asked::Use(4),
                time,
                blobfile: None,
            },
            &Presented::default(),
        );
        Call::Request {
            km0: vec![0; 20],
            acl: encode::acl(&Acl { groups }),
            request,
        }
    }

    #[test]
    fn the_example_of_the_script_format() {
        let calls = [Call::Load { time: 100 }, sign(&[], 105)];
        let script: Vec<u8> = calls.iter().flat_map(call_bytes).collect();
        let lines = "1 done load 100 last 100 counts counters\n\
                     2 permit 0 load 100 last 105 counts 0:1 counters\n";
        assert_eq!(answers(&script, ALL_KINDS), lines);
    }

    #[test]
    fn the_cabinet_example_of_the_script_format() {
        let limit = Limit {
            sort: Sort::Counter(3),
            maximum: 9,
        };
        let in_slot = |slot, call| Call::InSlot {
            slot,
            call: Box::new(call),
        };
        let calls = [
            Call::FreshCabinet,
            in_slot(2, Call::Load { time: 100 }),
            in_slot(2, sign(&[limit], 105)),
            in_slot(9, sign(&[limit], 105)),
            Call::ClearShared { counter: 256 },
            in_slot(1, sign(&[limit], 7)),
            Call::ClearShared { counter: 3 },
            in_slot(8, Call::Load { time: 1 }),
            Call::Load { time: 1 },
        ];
        let script: Vec<u8> = calls.iter().flat_map(call_bytes).collect();
        let lines = "1 done counters\n\
                     2 done slot 2 load 100 last 100 counts counters\n\
                     3 permit 0 slot 2 load 100 last 105 counts 0:1 counters 3:1\n\
                     4 refuse 13 counters 3:1\n\
                     5 refuse 10 counters 3:1\n\
                     6 permit 0 slot 1 load 0 last 7 counts 0:1 counters 3:2\n\
                     7 done counters\n\
                     8 refuse 13 counters\n\
                     9 done load 1 last 1 counts counters\n";
        assert_eq!(answers(&script, ALL_KINDS), lines);
    }

    #[test]
    fn the_batch_example_and_forms_of_the_script_format() {
        let Call::Request { km0, acl, request } = sign(&[], 0) else {
            unreachable!("a request");
        };
        let batch = Batch {
            km0,
            acl,
            row: Vec::new(),
            run: request,
            buffer: vec![0xee; 9],
        };
        let short = Batch {
            buffer: Vec::new(),
            ..batch.clone()
        };
        let acl = batch.acl.clone();
        let other = Call::PreparedRun {
            form: vec![0; 144],
            batch: batch.clone(),
        };
        let script = [
            call_bytes(&Call::Batch(batch)),
            call_bytes(&Call::Batch(short)),
            call_bytes(&other),
            call_bytes(&Call::Prepare { acl }),
        ]
        .concat();
        let lines = "1 length 1 0000000000000000ee load 0 last 0 counts 0:1 counters\n\
                     2 refuse 9  load 0 last 0 counts 0:1 counters\n\
                     3 refuse 14 eeeeeeeeeeeeeeeeee load 0 last 0 counts 0:1 counters\n";
        let zeros = |sets: usize| "0".repeat(16 * sets);
        let form = format!("4 form {}0000000000000001{}\n", zeros(4), zeros(13));
        assert_eq!(answers(&script, ALL_KINDS), format!("{lines}{form}"));
    }

    #[test]
    fn runs_in_slots_and_a_restored_count() {
        let Call::Request { km0, acl, request } = sign(&[], 5) else {
            unreachable!("a request");
        };
        let batch = Batch {
            km0,
            acl: acl.clone(),
            row: Vec::new(),
            run: [request.clone(), request].concat(),
            buffer: vec![0xee; 17],
        };
        let Ok(form) = prepare(&acl) else {
            unreachable!("a form");
        };
        let prepared = Call::PreparedRun {
            form: form_bytes(&form),
            batch: Batch {
                buffer: vec![0xee; 15],
                ..batch.clone()
            },
        };
        let in_slot = |slot, call| Call::InSlot {
            slot,
            call: Box::new(call),
        };
        let calls = [
            in_slot(7, Call::Batch(batch.clone())),
            in_slot(8, Call::Batch(batch)),
            in_slot(7, prepared),
            Call::SetCount {
                index: 0,
                value: u64::from(u32::MAX),
            },
            Call::SetCount {
                index: 319,
                value: 1,
            },
            sign(&[], 5),
        ];
        let script: Vec<u8> = calls.iter().flat_map(call_bytes).collect();
        let answers_of = |letters: &str| answers(&script, letters);
        let (zeros, old) = ("0".repeat(32), "ee".repeat(17));
        let full = u32::MAX;
        let lines = format!(
            "1 length 2 {zeros}ee slot 7 load 0 last 5 counts 0:2 counters\n\
             2 refuse 13 {old} counters\n\
             3 refuse 9 {} slot 7 load 0 last 5 counts 0:2 counters\n\
             4 done load 0 last 0 counts 0:{full} counters\n\
             5 done load 0 last 0 counts 0:{full} counters 255:1\n\
             6 refuse 7 0 load 0 last 0 counts 0:{full} counters 255:1\n",
            "ee".repeat(15)
        );
        assert_eq!(answers_of(ALL_KINDS), lines);
        assert_eq!(answers_of("q"), "1 stop\n");
    }

    #[test]
    fn places_show_every_number() {
        let file = |kind, file: &[u8]| Call::LocateFile {
            kind,
            file: file.to_vec(),
        };
        let desk = Call::Desk {
            bundle: vec![0; 65],
            acl: Vec::new(),
        };
        let request = sign(&[], 0);
        let calls = [
            file(0, &[]),
            file(1, &[]),
            file(2, &[0; 64]),
            file(9, &[]),
            Call::Locate(Box::new(request)),
            Call::Locate(Box::new(sign(&[LIMIT_OF_NONE], 0))),
            Call::Locate(Box::new(desk)),
        ];
        let script: Vec<u8> = calls.iter().flat_map(call_bytes).collect();
        let lines = "1 place 0 0 -\n2 place 2 3 0\n3 place 2 2 0\n4 place 10 0 -\n\
                     5 place 0 0 0 - - 0 -\n6 place 7 0 0 - 0 5 0\n7 place 1 0 6 1 - 0 0 - - -\n";
        assert_eq!(answers(&script, ALL_KINDS), lines);
    }

    #[test]
    fn the_day_of_four_signs_line_by_line() {
        let limits = [
            Limit {
                sort: Sort::UsesPerLoad,
                maximum: 1,
            },
            Limit {
                sort: Sort::Counter(3),
                maximum: 2,
            },
        ];
        let mut script = Vec::new();
        for _ in 0..4 {
            script.extend(call_bytes(&sign(&limits, 0)));
        }
        let lines = "1 permit 0 load 0 last 0 counts 0:1 counters\n\
                     2 permit 1 load 0 last 0 counts 0:1 1:1 counters 3:1\n\
                     3 permit 1 load 0 last 0 counts 0:1 1:2 counters 3:2\n\
                     4 refuse 7 0 load 0 last 0 counts 0:1 1:2 counters 3:2\n";
        assert_eq!(answers(&script, ALL_KINDS), lines);
    }

    #[test]
    fn subjects_and_stops() {
        let short = Call::Subject {
            certificate: 5,
            suite: 1,
            hashes: vec![0; 60],
            buffer: vec![0xab, 0x0c],
        };
        let empty = Call::Subject {
            certificate: 2,
            suite: 1,
            hashes: Vec::new(),
            buffer: Vec::new(),
        };
        let mut script = call_bytes(&short);
        script.extend(call_bytes(&empty));
        script.push(b'?');
        script.push(b'F');
        assert_eq!(
            answers(&script, ALL_KINDS),
            "1 refuse 9 ab0c\n2 refuse 10 \n3 stop\n"
        );
        assert_eq!(answers(&script, "FLCR"), "1 stop\n");
        assert_eq!(answers(&[], ALL_KINDS), "");
    }

    #[test]
    fn listings_show_the_whole_buffer() {
        let mut acl = vec![0; 64];
        acl[0] = 1;
        let write = Call::WriteListing {
            acl,
            buffer: vec![0xee; 7],
        };
        let read = |text: &[u8], length| Call::ReadListing {
            text: text.to_vec(),
            buffer: vec![0xee; length],
        };
        let calls = [
            write,
            read(b"group\ngroup", 2),
            read(b"group\n", 2),
            read(b"", 0),
        ];
        let script: Vec<u8> = calls.iter().flat_map(call_bytes).collect();
        let lines = "1 length 6 67726f75700aee\n2 refuse 15 2 eeee\n3 refuse 9 eeee\n4 length 0 \n";
        assert_eq!(answers(&script, ALL_KINDS), lines);
    }

    #[test]
    fn texts_show_the_whole_buffer() {
        let mut file = vec![0; 64];
        file[0] = 6;
        let write = |kind| Call::WriteText {
            kind,
            file: file.clone(),
            buffer: vec![0xee; 27],
        };
        let read = |kind, text: &[u8], length| Call::ReadText {
            kind,
            text: text.to_vec(),
            buffer: vec![0xee; length],
        };
        let calls = [
            write(1),
            write(0),
            write(5),
            read(2, b"use Sign time 0\nuse", 2),
            read(2, b"use Sign time 0\n", 2),
            read(4, b"", 0),
            read(5, b"", 1),
        ];
        let script: Vec<u8> = calls.iter().flat_map(call_bytes).collect();
        let (text, old) = ("use DuplicateHandle time 0\n", "ee".repeat(27));
        let lines = format!(
            "1 length 27 {}\n2 refuse 2 {old}\n3 refuse 10 {old}\n4 refuse 15 2 eeee\n\
             5 refuse 9 eeee\n6 length 0 \n7 refuse 10 ee\n",
            hex(text.as_bytes())
        );
        assert_eq!(answers(&script, ALL_KINDS), lines);
    }

    #[test]
    fn a_refused_clear_shows_the_ledger() {
        let script = call_bytes(&Call::Clear { counter: 256 });
        assert_eq!(
            answers(&script, ALL_KINDS),
            "1 refuse 10 load 0 last 0 counts counters\n"
        );
    }
}
