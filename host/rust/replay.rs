// Answers a replay script (docs/REPLAY.md) through the C surface, so that the linked library can be compared with the second
// program: `second/compare` takes it in the place of the replay program. Every call on a ledger or a cabinet is made in place and by
// value, and a run on a ledger is made in a slot of a cabinet too; this program ends where two of them differ.
mod akubolinfe;

use akubolinfe::{assess, write_subject, Ledger, Reply, Verdict};
use akubolinfe::{
    by_number, by_value, in_place, locate, prepare, read_listing, trim, write_listing, Cabinet, Certificate, Form, NotListed, NotTrimmed, Ran, Slot, UNNAMED,
    STEPS,
};
use std::io::{Read, Write};

// The rest of a script.
struct Script {
    bytes: Vec<u8>,
    at: usize,
}

impl Script {
    fn take(&mut self, n: usize) -> Option<&[u8]> {
        let from = self.at;
        let to = from.checked_add(n).filter(|&t| t <= self.bytes.len())?;
        self.at = to;
        Some(&self.bytes[from..to])
    }

    fn number(&mut self) -> Option<u64> {
        Some(u64::from_be_bytes(self.take(8)?.try_into().ok()?))
    }

    fn run(&mut self) -> Option<Vec<u8>> {
        let n = u32::from_be_bytes(self.take(4)?.try_into().ok()?) as usize;
        if n > 262_144 {
            return None;
        }
        Some(self.take(n)?.to_vec())
    }
}

fn table(name: &str, entries: &[u32]) -> String {
    let mut s = format!(" {name}");
    for (i, n) in entries.iter().enumerate().filter(|(_, n)| **n != 0) {
        s += &format!(" {i}:{n}");
    }
    s
}

fn words(reply: Reply) -> String {
    match reply {
        Reply::Done => "done".to_string(),
        Reply::Permit(g) => format!("permit {g}"),
        Reply::Refuse(n, None) => format!("refuse {n}"),
        Reply::Refuse(n, Some(g)) => format!("refuse {n} {g}"),
    }
}

fn ledger_words(ledger: &Ledger) -> String {
    let tables = table("counts", &ledger.counts) + &table("counters", &ledger.counters);
    format!(" load {} last {}{tables}", ledger.loaded, ledger.last)
}

fn verdict(v: Verdict) -> String {
    match v {
        Verdict::Generation => "accept 1".to_string(),
        Verdict::Policy { protection, recoverable } => {
            format!("accept 2 protection {protection} recoverable {}", if recoverable { "yes" } else { "no" })
        }
        Verdict::Failed(step) => format!("fail {step}"),
        Verdict::Refused(n) => format!("refuse {n}"),
    }
}

fn hex(bytes: &[u8]) -> String {
    bytes.iter().map(|b| format!("{b:02x}")).collect()
}

fn subject(s: &mut Script) -> Option<String> {
    let (certificate, suite, hashes, mut buffer) = (s.number()?, s.number()?, s.run()?, s.run()?);
    let w = write_subject(certificate, suite, &hashes, &mut buffer);
    Some(match w {
        Ok(n) => format!("length {n} {}", hex(&buffer)),
        Err(n) => format!("refuse {n} {}", hex(&buffer)),
    })
}

fn listing(s: &mut Script, made: impl Fn(&[u8], &mut [u8]) -> Result<u64, NotListed>) -> Option<String> {
    let (given, mut buffer) = (s.run()?, s.run()?);
    let l = made(&given, &mut buffer);
    Some(match l {
        Ok(n) => format!("length {n} {}", hex(&buffer)),
        Err(NotListed::BadLine(n)) => format!("refuse 15 {n} {}", hex(&buffer)),
        Err(NotListed::Refused(n)) => format!("refuse {n} {}", hex(&buffer)),
    })
}

// A text of a kind of file; a number of more than 32 bits is no kind's, and passes as the greatest of 32 bits.
fn text(s: &mut Script, made: fn(u32, &[u8], &mut [u8]) -> Result<u64, NotListed>) -> Option<String> {
    let kind = u32::try_from(s.number()?).unwrap_or(u32::MAX);
    listing(s, |given, buffer| made(kind, given, buffer))
}

fn trimmed(s: &mut Script) -> Option<String> {
    let (bundle, acl, mut new, mut hints) = (s.run()?, s.run()?, s.run()?, s.run()?);
    let answer = match trim(&bundle, &acl, &mut new, &mut hints) {
        Ok((m, n)) => format!("lengths {m} {n}"),
        Err(NotTrimmed::Failed(step)) => format!("fail {step}"),
        Err(NotTrimmed::Refused(n)) => format!("refuse {n}"),
    };
    Some(format!("{answer} {} {}", hex(&new), hex(&hints)))
}

fn prepared(s: &mut Script) -> Option<String> {
    Some(match prepare(&s.run()?) {
        Ok(f) => {
            let sets = f.uses.iter().chain([&f.working, &f.recovery]);
            sets.fold("form ".to_string(), |text, set| text + &format!("{set:016x}"))
        }
        Err(n) => format!("refuse {n}"),
    })
}

// A row of certificates; none where its length is no multiple of theirs.
fn row(bytes: &[u8]) -> Option<Vec<Certificate>> {
    if bytes.len() % 22 != 0 {
        return None;
    }
    let certificate = |c: &[u8]| Certificate {
        hash: c[..20].try_into().unwrap(),
        mechanism: u16::from_be_bytes([c[20], c[21]]),
    };
    Some(bytes.chunks(22).map(certificate).collect())
}

// A form of eighteen sets; none where it is of another length.
fn form(bytes: &[u8]) -> Option<Form> {
    let sets: Vec<u64> = bytes.chunks_exact(8).map(|n| u64::from_be_bytes(n.try_into().unwrap())).collect();
    if bytes.len() != 144 {
        return None;
    }
    Some(Form { uses: sets[..16].try_into().unwrap(), working: sets[16], recovery: sets[17] })
}

// A cabinet in which one slot has a ledger's counts and times, the others some of their own; the counters are the ledger's.
fn cabinet_of(ledger: &Ledger, slot: usize) -> Cabinet {
    let mut cabinet = Cabinet::fresh();
    for (i, other) in cabinet.slots.iter_mut().enumerate() {
        *other = Slot { counts: [i as u32 + 1; 64], loaded: i as u64, last: 9 };
    }
    cabinet.slots[slot] = Slot { counts: ledger.counts, loaded: ledger.loaded, last: ledger.last };
    cabinet.counters = ledger.counters;
    cabinet
}

// A run, on a ledger and in a slot, in place and by value.
struct Run {
    km0: Vec<u8>,
    acl: Vec<u8>,
    row: Vec<Certificate>,
    form: Option<Form>,
    requests: Vec<u8>,
}

impl Run {
    fn on(&self, ledger: &mut Ledger, b: &mut [u8]) -> Ran {
        match self.form {
            None => ledger.run(&self.km0, &self.acl, &self.row, &self.requests, b),
            Some(f) => ledger.prepared_run(&self.km0, &self.acl, &self.row, f, &self.requests, b),
        }
    }

    fn by_value(&self, l: Ledger, b: &mut [u8]) -> (Ledger, Ran) {
        match self.form {
            None => by_value::run(l, &self.km0, &self.acl, &self.row, &self.requests, b),
            Some(f) => by_value::prepared_run(l, &self.km0, &self.acl, &self.row, f, &self.requests, b),
        }
    }

    fn in_slot(&self, cabinet: &mut Cabinet, slot: usize, b: &mut [u8]) -> Ran {
        match self.form {
            None => cabinet.run(slot, &self.km0, &self.acl, &self.row, &self.requests, b),
            Some(f) => cabinet.prepared_run(slot, &self.km0, &self.acl, &self.row, f, &self.requests, b),
        }
    }

    fn in_slot_by_value(&self, c: Cabinet, slot: usize, b: &mut [u8]) -> (Cabinet, Ran) {
        match self.form {
            None => by_value::cabinet_run(c, slot, &self.km0, &self.acl, &self.row, &self.requests, b),
            Some(f) => by_value::cabinet_prepared_run(c, slot, &self.km0, &self.acl, &self.row, f, &self.requests, b),
        }
    }

    // The run in a slot, in place and by value: the reply, the cabinet and the buffer have to agree.
    fn both_in_slot(&self, cabinet: &Cabinet, slot: usize, lent: &[u8]) -> (Cabinet, Ran, Vec<u8>) {
        let (mut c, mut answers, mut same) = (cabinet.clone(), lent.to_vec(), lent.to_vec());
        let reply = self.in_slot(&mut c, slot, &mut answers);
        assert!(self.in_slot_by_value(cabinet.clone(), slot, &mut same) == (c.clone(), reply) && same == answers, "run in slot {slot} by value");
        (c, reply, answers)
    }

    // The run in the slot that its number of requests picks: reply, buffer and ledger have to be those of the run on the ledger, and the
    // other slots are unchanged. In slot 8, which no cabinet has, the run is refused with 13, and nothing changes.
    fn check_slots(&self, ledger: &Ledger, lent: &[u8], after: &Ledger, reply: Ran, answers: &[u8]) {
        let slot = self.requests.len() / 64 % 8;
        let before = cabinet_of(ledger, slot);
        assert!(self.both_in_slot(&before, 8, lent) == (before.clone(), Err(13), lent.to_vec()), "slot 8");
        let mut expected = before.clone();
        expected.slots[slot] = cabinet_of(after, slot).slots[slot].clone();
        expected.counters = after.counters;
        assert!(self.both_in_slot(&before, slot, lent) == (expected, reply, answers.to_vec()), "slot {slot}");
    }
}

// A run, with the form that comes first if it has one, and the buffer that is lent to it.
fn run(s: &mut Script, prepared: bool) -> Option<(Run, Vec<u8>)> {
    let form = if prepared { Some(form(&s.run()?)?) } else { None };
    let (km0, acl, row, requests) = (s.run()?, s.run()?, row(&s.run()?)?, s.run()?);
    Some((Run { km0, acl, row, form, requests }, s.run()?))
}

fn ran_words(reply: Ran, buffer: &[u8]) -> String {
    match reply {
        Ok(n) => format!("length {n} {}", hex(buffer)),
        Err(n) => format!("refuse {n} {}", hex(buffer)),
    }
}

fn batch(s: &mut Script, ledger: &mut Ledger, prepared: bool) -> Option<String> {
    let (run, mut buffer) = run(s, prepared)?;
    let (before, lent) = (ledger.clone(), buffer.clone());
    let mut same = lent.clone();
    let reply = run.on(ledger, &mut buffer);
    assert!(run.by_value(before.clone(), &mut same) == (ledger.clone(), reply) && same == buffer, "run by value");
    run.check_slots(&before, &lent, ledger, reply, &buffer);
    Some(ran_words(reply, &buffer) + &ledger_words(ledger))
}

// A run in a slot of the cabinet.
fn batch_in_slot(s: &mut Script, cabinet: &mut Cabinet, prepared: bool) -> Option<String> {
    let slot = s.number()? as usize;
    let (run, lent) = run(s, prepared)?;
    let (after, reply, answers) = run.both_in_slot(cabinet, slot, &lent);
    *cabinet = after;
    Some(ran_words(reply, &answers) + &slot_words(cabinet, slot) + &table("counters", &cabinet.counters))
}

// What a request, a narrowing and an expansion are lent: KM0, the ACL and the request; the new ACL and the hints, where the letter has them.
#[derive(Default)]
struct Lent {
    km0: Vec<u8>,
    acl: Vec<u8>,
    req: Vec<u8>,
    new: Vec<u8>,
    hints: Vec<u8>,
}

fn lent(letter: u8, s: &mut Script) -> Option<Lent> {
    let (km0, acl, req) = (s.run()?, s.run()?, s.run()?);
    let new = if matches!(letter, b'R' | b'r') { Vec::new() } else { s.run()? };
    let hints = if matches!(letter, b'N' | b'n') { s.run()? } else { Vec::new() };
    Some(Lent { km0, acl, req, new, hints })
}

// The same call by C's functions over a lent ledger, and the ledger that it leaves.
fn copied(letter: u8, mut ledger: Ledger, number: u64, [km0, acl, req, new, hints]: [&Vec<u8>; 5]) -> (Ledger, Reply) {
    let reply = match letter {
        b'L' => ledger.load(number),
        b'C' => ledger.clear(number as usize),
        b'R' => in_place::request(&mut ledger, km0, acl, req),
        b'N' => in_place::narrow(&mut ledger, km0, acl, req, new, hints),
        _ => in_place::expand(&mut ledger, km0, acl, req, new),
    };
    (ledger, reply)
}

// A call on a ledger, which is made in place; by value it has to reply the same and to return the same ledger.
fn asked(letter: u8, s: &mut Script, ledger: &mut Ledger) -> Option<Reply> {
    let before = ledger.clone();
    let number = if matches!(letter, b'L' | b'C') { s.number()? } else { 0 };
    let Lent { km0, acl, req, new, hints } = &if matches!(letter, b'L' | b'C') { Lent::default() } else { lent(letter, s)? };
    let copied = copied(letter, before.clone(), number, [km0, acl, req, new, hints]);
    let reply = match letter {
        b'L' => ledger.load(number),
        b'C' => ledger.clear(number as usize),
        b'R' => ledger.request(km0, acl, req),
        b'N' => ledger.narrow(km0, acl, req, new, hints),
        _ => ledger.expand(km0, acl, req, new),
    };
    let whole = match letter {
        b'L' => by_value::load(before, number),
        b'C' => by_value::clear(before, number as usize),
        b'R' => by_value::request(before, km0, acl, req),
        b'N' => by_value::narrow(before, km0, acl, req, new, hints),
        _ => by_value::expand(before, km0, acl, req, new),
    };
    assert!(whole == (ledger.clone(), reply), "by value");
    assert!(copied == (ledger.clone(), reply), "in place");
    Some(reply)
}

// A call on a cabinet; `first` is the slot, or the counter of a clear.
fn asked_in_slot(letter: u8, s: &mut Script, cabinet: &mut Cabinet, first: usize) -> Option<Reply> {
    let before = cabinet.clone();
    let number = if letter == b'l' { s.number()? } else { 0 };
    let Lent { km0, acl, req, new, hints } = &if matches!(letter, b'l' | b'c') { Lent::default() } else { lent(letter, s)? };
    let reply = match letter {
        b'l' => cabinet.load(first, number),
        b'c' => cabinet.clear(first),
        b'r' => cabinet.request(first, km0, acl, req),
        b'n' => cabinet.narrow(first, km0, acl, req, new, hints),
        _ => cabinet.expand(first, km0, acl, req, new),
    };
    let whole = match letter {
        b'l' => by_value::cabinet_load(before, first, number),
        b'c' => by_value::cabinet_clear(before, first),
        b'r' => by_value::cabinet_request(before, first, km0, acl, req),
        b'n' => by_value::cabinet_narrow(before, first, km0, acl, req, new, hints),
        _ => by_value::cabinet_expand(before, first, km0, acl, req, new),
    };
    assert!(whole == (cabinet.clone(), reply), "by value");
    Some(reply)
}

// A place: all its numbers, `-` for what is not named.
fn place_words(numbers: &[u32]) -> String {
    let word = |&n: &u32| if n == UNNAMED { " -".to_string() } else { format!(" {n}") };
    numbers.iter().map(word).fold("place".to_string(), |text, word| text + &word)
}

// Where a file is at fault; a number of more than 32 bits is no kind's, and passes as the greatest of 32 bits.
fn file_place(s: &mut Script) -> Option<String> {
    let kind = u32::try_from(s.number()?).unwrap_or(u32::MAX);
    let at = by_number::locate_file(kind, &s.run()?);
    Some(place_words(&[at.refusal, at.part, at.record]))
}

// What a request (G), a narrowing (H) or an expansion (I) would be refused for: the number has to be that of the call.
fn call_place(letter: u8, s: &mut Script, ledger: &Ledger) -> Option<String> {
    let asked = match letter {
        b'G' => b'R',
        b'H' => b'N',
        _ => b'X',
    };
    let Lent { km0, acl, req, new, hints } = &lent(asked, s)?;
    let (at, reply) = match letter {
        b'G' => (locate::request(ledger, km0, acl, req), ledger.clone().request(km0, acl, req)),
        b'H' => (locate::narrow(ledger, km0, acl, req, new, hints), ledger.clone().narrow(km0, acl, req, new, hints)),
        _ => (locate::expand(ledger, km0, acl, req, new), ledger.clone().expand(km0, acl, req, new)),
    };
    let refusal = if let Reply::Refuse(n, _) = reply { n } else { 0 };
    assert!(at.refusal == refusal, "the call gives {refusal}");
    Some(place_words(&[at.refusal, at.input, at.part, at.record, at.group, at.reason, at.item]))
}

// What a verdict is about: refusal and step have to be those of the desk.
fn verdict_place(s: &mut Script) -> Option<String> {
    let (bundle, acl) = (s.run()?, s.run()?);
    let at = locate::verdict(&bundle, &acl);
    let step = at.step.checked_sub(1).map(|n| STEPS[n as usize]);
    let same = match assess(&bundle, &acl) {
        Verdict::Refused(n) => (at.refusal, step) == (n, None),
        Verdict::Failed(name) => (at.refusal, step) == (0, Some(name)),
        _ => (at.refusal, step) == (0, None),
    };
    assert!(same, "the desk's verdict is another one");
    let about = [at.what, at.number, at.group, at.action, at.permission];
    Some(place_words(&[&[at.refusal, at.step, at.input, at.part, at.record][..], &about].concat()))
}

// What is carried from call to call.
struct State {
    ledger: Ledger,
    cabinet: Cabinet,
}

// The cabinet's answer to one call, the slot called and the shared counters.
fn cabinet_answer(letter: u8, s: &mut Script, cabinet: &mut Cabinet) -> Option<String> {
    let first = if letter == b'f' { 0 } else { s.number()? as usize };
    let reply = match letter {
        b'f' => {
            *cabinet = Cabinet::fresh();
            Reply::Done
        }
        _ => asked_in_slot(letter, s, cabinet, first)?,
    };
    let called = if matches!(letter, b'f' | b'c') { String::new() } else { slot_words(cabinet, first) };
    Some(words(reply) + &called + &table("counters", &cabinet.counters))
}

// The slot that was called; nothing where there is no such slot.
fn slot_words(cabinet: &Cabinet, slot: usize) -> String {
    cabinet.slots.get(slot).map_or(String::new(), |s| {
        format!(" slot {slot} load {} last {}{}", s.loaded, s.last, table("counts", &s.counts))
    })
}

// One count, or one named counter, of a ledger that is restored; none where there is no such count, or no such number of 32 bits.
fn restored(s: &mut Script, ledger: &mut Ledger) -> Option<Reply> {
    let (index, value) = (usize::try_from(s.number()?).ok()?, u32::try_from(s.number()?).ok()?);
    *ledger.counts.iter_mut().chain(ledger.counters.iter_mut()).nth(index)? = value;
    Some(Reply::Done)
}

// The answer to one call; none where the script cannot be read on.
fn answer(letter: u8, s: &mut Script, state: &mut State) -> Option<String> {
    let reply = match letter {
        b'F' => {
            state.ledger = Ledger::fresh();
            Reply::Done
        }
        b'L' | b'C' | b'R' | b'N' | b'X' => asked(letter, s, &mut state.ledger)?,
        b'D' => return Some(verdict(assess(&s.run()?, &s.run()?))),
        b'S' => return subject(s),
        b'W' => return listing(s, write_listing),
        b'T' => return listing(s, read_listing),
        b'V' => return text(s, by_number::write_text),
        b'U' => return text(s, by_number::read_text),
        b'M' => return trimmed(s),
        b'P' => return prepared(s),
        b'B' | b'Q' => return batch(s, &mut state.ledger, letter == b'Q'),
        b'b' | b'q' => return batch_in_slot(s, &mut state.cabinet, letter == b'q'),
        b'K' => restored(s, &mut state.ledger)?,
        b'A' => return file_place(s),
        b'G' | b'H' | b'I' => return call_place(letter, s, &state.ledger),
        b'J' => return verdict_place(s),
        b'f' | b'l' | b'c' | b'r' | b'n' | b'x' => return cabinet_answer(letter, s, &mut state.cabinet),
        _ => return None,
    };
    Some(words(reply) + &ledger_words(&state.ledger))
}

/// Answers a script, a line for each call.
pub fn replay(bytes: Vec<u8>, out: &mut impl Write) -> std::io::Result<()> {
    let mut s = Script { bytes, at: 0 };
    let mut state = State {
        ledger: Ledger::fresh(),
        cabinet: Cabinet::fresh(),
    };
    let mut k = 0u64;
    while s.at < s.bytes.len() {
        k += 1;
        let letter = s.bytes[s.at];
        s.at += 1;
        match answer(letter, &mut s, &mut state) {
            Some(line) => writeln!(out, "{k} {line}")?,
            None => {
                writeln!(out, "{k} stop")?;
                break;
            }
        }
    }
    out.flush()
}

fn main() -> std::io::Result<()> {
    let mut script = Vec::new();
    std::io::stdin().read_to_end(&mut script)?;
    replay(script, &mut std::io::BufWriter::new(std::io::stdout()))
}
