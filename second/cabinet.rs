//! The cabinet: eight slots, each with its own group counts and times, and one shared table of named
//! counters.

use crate::acl::MOST_GROUPS;
use crate::ledger::{cleared_counters, Ledger, COUNTERS};
use crate::record::Refusal;

pub const SLOTS: usize = 8;

/// What one slot has of its own.
#[derive(Clone, Copy, Debug, PartialEq)]
struct Slot {
    group_counts: [u32; MOST_GROUPS],
    load_time: u64,
    last_time: u64,
}

#[derive(Clone, Debug, PartialEq)]
pub struct Cabinet {
    slots: [Slot; SLOTS],
    pub counters: [u32; COUNTERS],
}

/// "Slot numbers over 7 get a new refusal, 13, first of all."
pub fn check_slot(slot: u64) -> Result<usize, Refusal> {
    match usize::try_from(slot) {
        Ok(place) if place < SLOTS => Ok(place),
        _ => Err(Refusal::NoSuchSlot),
    }
}

impl Cabinet {
    pub fn fresh() -> Cabinet {
        let Ledger {
            group_counts,
            counters,
            load_time,
            last_time,
        } = Ledger::fresh();
        let slot = Slot {
            group_counts,
            load_time,
            last_time,
        };
        Cabinet {
            slots: [slot; SLOTS],
            counters,
        }
    }

    /// "A slot answers and is charged as the gate would with its counts, times and the shared
    /// table": that ledger.
    pub fn ledger(&self, place: usize) -> Ledger {
        let slot = self.slots[place];
        Ledger {
            group_counts: slot.group_counts,
            counters: self.counters,
            load_time: slot.load_time,
            last_time: slot.last_time,
        }
    }

    /// The cabinet in which that ledger is the slot's.
    pub fn with_ledger(&self, place: usize, ledger: Ledger) -> Cabinet {
        let mut cabinet = self.clone();
        cabinet.slots[place] = Slot {
            group_counts: ledger.group_counts,
            load_time: ledger.load_time,
            last_time: ledger.last_time,
        };
        cabinet.counters = ledger.counters;
        cabinet
    }

    /// "A clear takes no slot and affects every slot naming the counter."
    pub fn cleared(&self, counter: u64) -> Result<Cabinet, Refusal> {
        Ok(Cabinet {
            counters: cleared_counters(&self.counters, counter)?,
            ..self.clone()
        })
    }
}

#[cfg(test)]
mod tests {
    use super::*;

    #[test]
    fn slots_share_the_counters_and_nothing_else() {
        let mut ledger = Cabinet::fresh().ledger(2).loaded(100);
        ledger.group_counts[5] = 3;
        ledger.counters[255] = 4;
        let cabinet = Cabinet::fresh().with_ledger(2, ledger.clone());
        assert_eq!(cabinet.ledger(2), ledger);
        let mut other = Ledger::fresh();
        other.counters[255] = 4;
        for place in [0, 1, 3, 4, 5, 6, 7] {
            assert_eq!(cabinet.ledger(place), other);
        }
        let cleared = cabinet.cleared(255).unwrap();
        assert_eq!(cleared.ledger(7), Ledger::fresh());
        assert_eq!(cleared.ledger(2).group_counts[5], 3);
        assert_eq!(cabinet.cleared(256), Err(Refusal::NoSuchNumber));
    }

    #[test]
    fn slot_numbers() {
        assert_eq!(check_slot(7), Ok(7));
        for slot in [8, 256, 1 << 32, u64::MAX] {
            assert_eq!(check_slot(slot), Err(Refusal::NoSuchSlot));
        }
    }
}
