//! Answers a replay script (docs/REPLAY.md) by the ordinary program, so that `second/compare` can hold its answers to the second program's. It reads every
//! letter but `V` and `U`: of the texts the ordinary program has the listings alone.
mod ordinary;

use ordinary::{
    assess, prepare, read_listing, trim, write_listing, write_subject, Cabinet, Certificate, Form, Ledger, NotListed, NotTrimmed, Reply, Verdict,
};
use std::io::{Read, Write};

const MOST_BYTES: u32 = 262_144;

// The rest of a script.
struct Script<'a>(&'a [u8]);

impl<'a> Script<'a> {
    fn take(&mut self, n: usize) -> Option<&'a [u8]> {
        self.0.split_off(..n)
    }

    fn number(&mut self) -> Option<u64> {
        Some(u64::from_be_bytes(self.take(8)?.try_into().ok()?))
    }

    fn bytes(&mut self) -> Option<&'a [u8]> {
        let n = u32::from_be_bytes(self.take(4)?.try_into().ok()?);
        if n <= MOST_BYTES { self.take(n as usize) } else { None }
    }

    fn buffer(&mut self) -> Option<Vec<u8>> {
        self.bytes().map(<[u8]>::to_vec)
    }

    fn row(&mut self) -> Option<Vec<Certificate>> {
        let (row, rest) = self.bytes()?.as_chunks::<22>();
        let certificate = |c: &[u8; 22]| Certificate { hash: c[..20].try_into().unwrap(), mechanism: u16::from_be_bytes([c[20], c[21]]) };
        rest.is_empty().then(|| row.iter().map(certificate).collect())
    }

    fn form(&mut self) -> Option<Form> {
        let (sets, _) = <&[u8; 144]>::try_from(self.bytes()?).ok()?.as_chunks();
        let set = |p: usize| u64::from_be_bytes(sets[p]);
        Some(Form { uses: std::array::from_fn(set), working: set(16), recovery: set(17) })
    }
}

fn hex(bytes: &[u8]) -> String {
    bytes.iter().map(|b| format!("{b:02x}")).collect()
}

fn table(name: &str, entries: &[u32]) -> String {
    let used = entries.iter().enumerate().filter(|(_, n)| **n != 0);
    used.fold(format!(" {name}"), |line, (i, n)| format!("{line} {i}:{n}"))
}

fn reply(r: Reply) -> String {
    match r {
        Reply::Done => "done".to_string(),
        Reply::Permit(g) => format!("permit {g}"),
        Reply::Refuse(n, None) => format!("refuse {n}"),
        Reply::Refuse(n, Some(g)) => format!("refuse {n} {g}"),
    }
}

fn with_ledger(answer: String, l: &Ledger) -> String {
    format!("{answer} load {} last {}{}{}", l.loaded, l.last, table("counts", &l.counts), table("counters", &l.counters))
}

fn verdict(v: Verdict) -> String {
    match v {
        Verdict::Generation => "accept 1".to_string(),
        Verdict::Policy { protection, recoverable } => {
            format!("accept 2 protection {protection} recoverable {}", if recoverable { "yes" } else { "no" })
        }
        Verdict::Failed(step) => format!("fail {step}"),
        Verdict::Refused(n) => format!("refuse {n}"),
    }
}

// A length or a refusal, and the buffer.
fn with_buffer(answer: Result<u64, u32>, buffer: &[u8]) -> String {
    format!("{} {}", answer.map_or_else(|n| format!("refuse {n}"), |n| format!("length {n}")), hex(buffer))
}

fn listing(s: &mut Script, made: fn(&[u8], &mut [u8]) -> Result<u64, NotListed>) -> Option<String> {
    let (given, mut buffer) = (s.bytes()?, s.buffer()?);
    Some(match made(given, &mut buffer) {
        Err(NotListed::BadLine(line)) => format!("refuse 15 {line} {}", hex(&buffer)),
        Err(NotListed::Refused(n)) => with_buffer(Err(n), &buffer),
        Ok(n) => with_buffer(Ok(n), &buffer),
    })
}

fn trimmed(s: &mut Script) -> Option<String> {
    let (bundle, acl, mut new, mut hints) = (s.bytes()?, s.bytes()?, s.buffer()?, s.buffer()?);
    let answer = match trim(bundle, acl, &mut new, &mut hints) {
        Ok((m, n)) => format!("lengths {m} {n}"),
        Err(NotTrimmed::Failed(step)) => format!("fail {step}"),
        Err(NotTrimmed::Refused(n)) => format!("refuse {n}"),
    };
    Some(format!("{answer} {} {}", hex(&new), hex(&hints)))
}

fn prepared(acl: &[u8]) -> String {
    match prepare(acl) {
        Ok(f) => f.uses.iter().chain([&f.working, &f.recovery]).fold("form ".to_string(), |text, set| format!("{text}{set:016x}")),
        Err(n) => format!("refuse {n}"),
    }
}

// What a run is lent, with the form that comes first if it is prepared, and the buffer for its answers.
struct Run<'a> {
    form: Option<Form>,
    km0: &'a [u8],
    acl: &'a [u8],
    row: Vec<Certificate>,
    requests: &'a [u8],
    answers: Vec<u8>,
}

impl<'a> Run<'a> {
    fn read(s: &mut Script<'a>, prepared: bool) -> Option<Run<'a>> {
        let form = if prepared { Some(s.form()?) } else { None };
        Some(Run { form, km0: s.bytes()?, acl: s.bytes()?, row: s.row()?, requests: s.bytes()?, answers: s.buffer()? })
    }

    fn on(mut self, ledger: &mut Ledger) -> String {
        let told = match self.form {
            None => ledger.run(self.km0, self.acl, &self.row, self.requests, &mut self.answers),
            Some(form) => ledger.prepared_run(self.km0, self.acl, &self.row, form, self.requests, &mut self.answers),
        };
        with_ledger(with_buffer(told, &self.answers), ledger)
    }

    fn in_slot(mut self, cabinet: &mut Cabinet, slot: usize) -> String {
        let told = match self.form {
            None => cabinet.run(slot, self.km0, self.acl, &self.row, self.requests, &mut self.answers),
            Some(form) => cabinet.prepared_run(slot, self.km0, self.acl, &self.row, form, self.requests, &mut self.answers),
        };
        with_buffer(told, &self.answers) + &slot_words(cabinet, slot) + &table("counters", &cabinet.counters)
    }
}

// The slot that was called; nothing where there is no such slot.
fn slot_words(cabinet: &Cabinet, slot: usize) -> String {
    let called = cabinet.slots.get(slot);
    called.map_or(String::new(), |s| format!(" slot {slot} load {} last {}{}", s.loaded, s.last, table("counts", &s.counts)))
}

fn asked(letter: u8, s: &mut Script, ledger: &mut Ledger) -> Option<Reply> {
    Some(match letter {
        b'F' => {
            *ledger = Ledger::fresh();
            Reply::Done
        }
        b'L' => ledger.load(s.number()?),
        b'C' => ledger.clear(s.number()? as usize),
        b'R' => ledger.request(s.bytes()?, s.bytes()?, s.bytes()?),
        b'N' => ledger.narrow(s.bytes()?, s.bytes()?, s.bytes()?, s.bytes()?, s.bytes()?),
        b'K' => {
            let (index, value) = (usize::try_from(s.number()?).ok()?, u32::try_from(s.number()?).ok()?);
            *ledger.counts.iter_mut().chain(&mut ledger.counters).nth(index)? = value;
            Reply::Done
        }
        _ => ledger.expand(s.bytes()?, s.bytes()?, s.bytes()?, s.bytes()?),
    })
}

// A call on the cabinet, the slot called and the shared counters.
fn asked_in_slot(letter: u8, s: &mut Script, cabinet: &mut Cabinet) -> Option<String> {
    let first = if letter == b'f' { 0 } else { s.number()? as usize };
    let told = match letter {
        b'f' => {
            *cabinet = Cabinet::fresh();
            Reply::Done
        }
        b'l' => cabinet.load(first, s.number()?),
        b'c' => cabinet.clear(first),
        b'r' => cabinet.request(first, s.bytes()?, s.bytes()?, s.bytes()?),
        b'n' => cabinet.narrow(first, s.bytes()?, s.bytes()?, s.bytes()?, s.bytes()?, s.bytes()?),
        _ => cabinet.expand(first, s.bytes()?, s.bytes()?, s.bytes()?, s.bytes()?),
    };
    let called = if matches!(letter, b'f' | b'c') { String::new() } else { slot_words(cabinet, first) };
    Some(reply(told) + &called + &table("counters", &cabinet.counters))
}

// The answer to one call; none where the script cannot be read on.
fn answer(letter: u8, s: &mut Script, ledger: &mut Ledger, cabinet: &mut Cabinet) -> Option<String> {
    Some(match letter {
        b'F' | b'L' | b'C' | b'R' | b'N' | b'X' | b'K' => with_ledger(reply(asked(letter, s, ledger)?), ledger),
        b'f' | b'l' | b'c' | b'r' | b'n' | b'x' => asked_in_slot(letter, s, cabinet)?,
        b'D' => verdict(assess(s.bytes()?, s.bytes()?)),
        b'S' => {
            let (certificate, suite, hashes, mut buffer) = (s.number()?, s.number()?, s.bytes()?, s.buffer()?);
            with_buffer(write_subject(certificate, suite, hashes, &mut buffer), &buffer)
        }
        b'W' => listing(s, write_listing)?,
        b'T' => listing(s, read_listing)?,
        b'M' => trimmed(s)?,
        b'P' => prepared(s.bytes()?),
        b'B' | b'Q' => Run::read(s, letter == b'Q')?.on(ledger),
        b'b' | b'q' => {
            let slot = s.number()? as usize;
            Run::read(s, letter == b'q')?.in_slot(cabinet, slot)
        }
        _ => return None,
    })
}

fn main() {
    let mut input = Vec::new();
    std::io::stdin().read_to_end(&mut input).expect("a script");
    let mut output = std::io::BufWriter::new(std::io::stdout().lock());
    let (mut script, mut ledger, mut cabinet) = (Script(&input), Ledger::fresh(), Cabinet::fresh());
    for n in 1.. {
        let Some(&letter) = script.0.split_off_first() else { break };
        let line = answer(letter, &mut script, &mut ledger, &mut cabinet);
        writeln!(output, "{n} {}", line.as_deref().unwrap_or("stop")).expect("room for the answers");
        if line.is_none() {
            break;
        }
    }
}
