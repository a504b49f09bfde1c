//! Makes sequences of requests, clears, reloads and narrowings, for request m.

use crate::account::{Event, History};
use crate::acl::Acl;
use crate::encode;
use crate::gate;
use crate::ledger::Ledger;
use crate::make_breach::BREACHES;
use crate::maker::Maker;
use crate::record::{Hash, Refusal};
use crate::replace::narrow;
use crate::request::REDUCE_ACL;

/// What the sequences held.
#[derive(Default)]
pub struct Tally {
    pub permits: u64,
    pub narrowings: u64,
    pub after_narrowing: u64,
    pub spent: u64,
}

/// The gate in use: the ledger last handed back and the ACL in force.
struct Course {
    history: History,
    km0: Hash,
    acl: Acl,
    ledger: Ledger,
    narrowed: bool,
}

impl Maker {
    /// A random sequence of requests, clears, reloads and narrowings from a load on.
    pub fn history(&mut self, tally: &mut Tally) -> History {
        let mut course = self.course();
        for _ in 0..self.random.between(1, 40) {
            self.ledger = course.ledger.clone();
            self.km0 = course.km0;
            match self.random.weighted(&[66, 18, 8, 8]) {
                0 => self.ask(&mut course, tally),
                1 => self.narrow(&mut course, tally),
                2 => {
                    let counter = self.counter_to_clear(&course.acl);
                    if let Ok(cleared) = course.ledger.cleared(counter) {
                        course.ledger = cleared;
                    }
                    course.history.events.push(Event::Clear { counter });
                }
                _ => {
                    let time = course.ledger.last_time.wrapping_add(self.random.below(5));
                    course.ledger = course.ledger.loaded(time);
                    course.history.events.push(Event::Load { time });
                }
            }
        }
        course.history
    }

    /// A first ACL that may be narrowed, and readings of which some counters are not zero, a few of
    /// them nearly full.
    fn course(&mut self) -> Course {
        let mut ledger = Ledger::fresh();
        for counter in &mut ledger.counters {
            let full = u32::MAX - self.random.below(3) as u32;
            let low = self.random.below(4) as u32;
            *counter = self.random.pick_weighted(&[(80, 0), (17, low), (3, full)]);
        }
        self.ledger = ledger.loaded(self.random.below(1000));
        self.km0 = self.some_km0();
        let mut acl = self.acl();
        if self.random.chance(95) {
            acl.groups.truncate(4);
        }
        self.allow(&mut acl, REDUCE_ACL);
        Course {
            history: History {
                first: acl.clone(),
                readings: self.ledger.clone(),
                events: Vec::new(),
            },
            km0: self.km0,
            acl,
            ledger: self.ledger.clone(),
            narrowed: false,
        }
    }

    fn ask(&mut self, course: &mut Course, tally: &mut Tally) {
        let asking = self.asking(&course.acl);
        let file = encode::request(&asking.request, &asking.presented);
        let reply = gate::request(&course.ledger, &self.km0, &encode::acl(&course.acl), &file);
        let event = Event::Permit {
            km0: self.km0,
            request: asking.request,
            presented: asking.presented,
        };
        course.follow(reply, event, tally);
    }

    fn narrow(&mut self, course: &mut Course, tally: &mut Tally) {
        let percent = self.random.pick(&[4, 10, 30]);
        let mut narrowing = self.narrowing(&course.acl, percent);
        if self.random.chance(20) {
            // Refused with 8 as it should be, it changes nothing.
            let breach = self.random.pick(&BREACHES);
            self.breaks(&mut narrowing, breach);
        }
        let asking = self.asking_use(&course.acl, REDUCE_ACL);
        let reply = narrow(
            &course.ledger,
            &self.km0,
            &encode::acl(&course.acl),
            &encode::request(&asking.request, &asking.presented),
            &encode::acl(&narrowing.new),
            &encode::hints(&narrowing.hints),
        );
        let event = Event::Permit {
            km0: self.km0,
            request: asking.request,
            presented: asking.presented,
        };
        if course.follow(reply, event, tally) {
            tally.narrowings += 1;
            course.acl = narrowing.new;
            course.narrowed = true;
        }
    }
}

impl Course {
    /// Goes on by the reply; whether it was a permit.
    fn follow(
        &mut self,
        reply: Result<(usize, Ledger), Refusal>,
        event: Event,
        tally: &mut Tally,
    ) -> bool {
        match reply {
            Ok((_, ledger)) => {
                self.ledger = ledger;
                self.history.events.push(event);
                tally.permits += 1;
                tally.after_narrowing += u64::from(self.narrowed);
                true
            }
            Err(refusal) => {
                tally.spent += u64::from(matches!(refusal, Refusal::Spent { .. }));
                false
            }
        }
    }
}
