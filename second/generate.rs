//! Generates scripts: hosts that hold an ACL in force each and go on with each new one, and calls of
//! their own in between. The same seed, number of calls and kinds always give the same script.

use std::io::{self, Write};

use crate::acl::Acl;
#[cfg(test)]
use crate::answer::answer_call;
use crate::answer::{Answer, State};
use crate::cabinet::SLOTS;
use crate::call::Call;
#[cfg(test)]
use crate::ledger::Ledger;
use crate::make_request::{load_is_due, FAR_TIME};
use crate::maker::Maker;
use crate::read_acl::read_acl;
use crate::record::Hash;
use crate::request::{EXPAND_ACL, REDUCE_ACL};
use crate::script::write_call;

/// How often each letter is drawn.
const WEIGHTS: [(u8, u64); 30] = [
    (b'F', 12),
    (b'L', 60),
    (b'C', 45),
    (b'R', 430),
    (b'N', 190),
    (b'X', 70),
    (b'D', 190),
    (b'S', 60),
    (b'W', 60),
    (b'T', 120),
    (b'V', 90),
    (b'U', 150),
    (b'f', 6),
    (b'l', 50),
    (b'c', 30),
    (b'r', 240),
    (b'n', 80),
    (b'x', 35),
    (b'B', 110),
    (b'P', 40),
    (b'Q', 90),
    (b'M', 130),
    (b'b', 50),
    (b'q', 50),
    (b'A', 130),
    (b'G', 110),
    (b'H', 150),
    (b'I', 50),
    (b'J', 170),
    (b'K', 25),
];

/// After so many refusals in a row the host takes another ACL.
const MOST_REFUSALS: u32 = 12;

/// A host that keeps one ACL in force.
pub struct Host {
    pub km0: Hash,
    pub acl: Acl,
    refusals: u32,
}

pub struct Generator {
    pub maker: Maker,
    pub state: State,
    /// One host for each slot of the cabinet, and one for the ledger.
    hosts: Vec<Host>,
    /// The place of the host that makes the call.
    at: usize,
    pub kinds: Vec<u8>,
    pub seed: u64,
}

/// The place of the ledger's host, after those of the slots.
const AT_LEDGER: usize = SLOTS;

/// Writes a script of so many calls; a seed divisible by 16 adds an ending that stops the run.
pub fn generate(output: &mut impl Write, seed: u64, calls: u64, kinds: &str) -> io::Result<()> {
    let mut generator = Generator::new(seed, kinds);
    for _ in 0..calls {
        write_call(output, &generator.next_call())?;
    }
    if seed % 16 == 0 {
        output.write_all(&generator.stopping_end())?;
    }
    output.flush()
}

impl Generator {
    fn new(seed: u64, kinds: &str) -> Generator {
        let mut maker = Maker::new(seed, true);
        let hosts = (0..=AT_LEDGER)
            .map(|_| Host {
                km0: maker.some_km0(),
                acl: Acl::default(),
                refusals: 0,
            })
            .collect();
        let mut generator = Generator {
            maker,
            state: State::fresh(),
            hosts,
            at: AT_LEDGER,
            kinds: kinds.as_bytes().to_vec(),
            seed,
        };
        for place in 0..=AT_LEDGER {
            generator.go_to(place);
            generator.take_another_acl();
        }
        generator
    }

    fn knows(&self, letters: &[u8]) -> bool {
        letters.iter().any(|letter| self.kinds.contains(letter))
    }

    pub fn host(&mut self) -> &mut Host {
        &mut self.hosts[self.at]
    }

    /// The next call is made by that host, on its ledger.
    fn go_to(&mut self, place: usize) {
        self.at = place;
        if place == AT_LEDGER {
            self.maker.ledger = self.state.ledger.clone();
            self.maker.may_load = self.knows(b"LF");
        } else {
            self.maker.ledger = self.state.cabinet.ledger(place);
            self.maker.may_load = self.knows(b"lf");
        }
    }

    /// The host for a call of that letter. Slots whose clock has run far ahead are loaded first.
    fn place_for(&mut self, letter: u8) -> usize {
        if letter.is_ascii_uppercase() {
            return AT_LEDGER;
        }
        let place = self.maker.random.place(SLOTS);
        let favoured = self.maker.random.pick(&[place, place, 0, 3, 7]);
        let due = |place: &usize| load_is_due(&self.state.cabinet.ledger(*place));
        let wanted: Vec<usize> = (0..SLOTS)
            .filter(|place| due(place) == (letter == b'l'))
            .collect();
        if wanted.is_empty() || self.maker.random.chance(15) || wanted.contains(&favoured) {
            favoured
        } else {
            self.maker.random.pick(&wanted)
        }
    }

    fn take_another_acl(&mut self) {
        self.maker.km0 = self.maker.some_km0();
        let mut acl = self.maker.acl();
        for permission in [REDUCE_ACL, EXPAND_ACL] {
            if self.maker.random.chance(80) {
                self.maker.allow(&mut acl, permission);
            }
        }
        *self.host() = Host {
            km0: self.maker.km0,
            acl,
            refusals: 0,
        };
    }

    /// Makes the next call and follows the state and the host's ACL by its answer.
    fn next_call(&mut self) -> Call {
        let letter = self.letter();
        let place = self.place_for(letter);
        self.go_to(place);
        if self.host().refusals > MOST_REFUSALS || self.maker.random.once_in(80) {
            self.take_another_acl();
        }
        let (call, by_host) = self.make_call(letter);
        let answer = self.state.answer(&mut call.clone());
        if by_host {
            self.follow(&call, answer);
        }
        call
    }

    fn letter(&mut self) -> u8 {
        let due = load_is_due(&self.state.ledger);
        let mut weights: Vec<(u64, u8)> = Vec::new();
        for (letter, weight) in WEIGHTS {
            if self.kinds.contains(&letter) {
                let urgent = due && (letter == b'L' || letter == b'F');
                weights.push((if urgent { weight * 8 } else { weight }, letter));
            }
        }
        self.maker.random.pick_weighted(&weights)
    }

    fn follow(&mut self, call: &Call, answer: Answer) {
        if let Call::InSlot { call, .. } = call {
            return self.follow(call, answer);
        }
        if !matches!(answer, Answer::Permit(_)) {
            self.host().refusals += 1;
            return;
        }
        self.host().refusals = 0;
        if let Call::Narrow { new_acl, .. } | Call::Expand { new_acl, .. } = call {
            self.host().acl = read_acl(new_acl).unwrap_or_default();
        }
    }

    /// The call, and whether it is the host's own.
    pub fn make_call(&mut self, letter: u8) -> (Call, bool) {
        let by_host = self.maker.random.chance(58);
        let call = match letter {
            b'F' => Call::Fresh,
            b'f' => Call::FreshCabinet,
            b'L' => Call::Load {
                time: self.load_time(),
            },
            b'C' => Call::Clear {
                counter: self.counter_to_clear(),
            },
            b'c' => Call::ClearShared {
                counter: self.counter_to_clear(),
            },
            b'R' => self.request_call(by_host),
            b'N' => self.narrow_call(by_host),
            b'X' => self.expand_call(by_host),
            b'D' => self.maker.desk_call(),
            b'M' => self.maker.trim_call(),
            b'S' => self.maker.subject_call(),
            b'W' => self.maker.write_listing_call(),
            b'T' => self.maker.read_listing_call(),
            b'V' => self.maker.write_text_call(),
            b'U' => self.maker.read_text_call(),
            b'B' => self.batch_call(by_host),
            b'P' => self.prepare_call(by_host),
            b'Q' => self.prepared_run_call(by_host),
            b'A' => self.maker.locate_file_call(),
            b'G' | b'H' | b'I' => self.locate_call(letter, by_host),
            b'J' => self.maker.locate_verdict_call(),
            b'K' => self.set_count_call(),
            _ => return self.call_in_slot(letter),
        };
        (call, by_host && matches!(letter, b'R' | b'N' | b'X'))
    }

    fn counter_to_clear(&mut self) -> u64 {
        let acl = self.host().acl.clone();
        self.maker.counter_to_clear(&acl)
    }

    /// The call of the upper-case letter in this slot; now and then in one that there is not.
    fn call_in_slot(&mut self, letter: u8) -> (Call, bool) {
        let (call, by_host) = self.make_call(letter.to_ascii_uppercase());
        let slot = self.at as u64;
        let random = &mut self.maker.random;
        let none = [8, 8, 9, 255, 256 + slot, slot | 1 << 32, slot | 1 << 63];
        let known = random.chance(94);
        let slot = if known { slot } else { random.pick(&none) };
        let call = Box::new(call);
        (Call::InSlot { slot, call }, by_host && known)
    }

    /// Forwards, backwards, far ahead or nought; back from far ahead soon.
    fn load_time(&mut self) -> u64 {
        let last = self.maker.ledger.last_time;
        let random = &mut self.maker.random;
        if last >= FAR_TIME && random.chance(90) {
            return random.below(10_000);
        }
        match random.weighted(&[50, 15, 10, 10, 6, 6, 3]) {
            0 => last.saturating_add(random.below(100)),
            1 => last,
            2 => last.saturating_sub(random.between(1, 50)),
            3 => random.below(10_000),
            4 => 0,
            5 => (1 << 32) - 5 + random.below(10),
            _ => u64::MAX - random.below(20),
        }
    }
}

/// The calls of a script, each with the ledger before it and its answer.
#[cfg(test)]
pub fn calls_of(seed: u64, calls: u64, kinds: &str) -> Vec<(Ledger, Call, Answer)> {
    let mut generator = Generator::new(seed, kinds);
    let mut made = Vec::new();
    for _ in 0..calls {
        let before = generator.state.ledger.clone();
        let call = generator.next_call();
        let answer = answer_call(&mut before.clone(), &mut call.clone());
        made.push((before, call, answer));
    }
    made
}

#[cfg(test)]
mod tests;
