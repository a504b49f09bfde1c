//! The ledger: what the gate remembers from call to call.

use crate::acl::{Group, Sort, MOST_GROUPS};
use crate::record::Refusal;

/// "Numbers 0 to 255": every byte is a counter's number.
pub const COUNTERS: usize = 256;

/// A refused call leaves the old ledger standing, since
/// every step hands back a new one.
#[derive(Clone, Debug, PartialEq, Eq, Hash)]
pub struct Ledger {
    pub group_counts: [u32; MOST_GROUPS],
    pub counters: [u32; COUNTERS],
    pub load_time: u64,
    pub last_time: u64,
}

impl Ledger {
    pub fn fresh() -> Ledger {
        Ledger {
            group_counts: [0; MOST_GROUPS],
            counters: [0; COUNTERS],
            load_time: 0,
            last_time: 0,
        }
    }

    /// "Load, at any time given: group counts zero, both times set to it."
    pub fn loaded(&self, time: u64) -> Ledger {
        Ledger {
            group_counts: [0; MOST_GROUPS],
            counters: self.counters,
            load_time: time,
            last_time: time,
        }
    }

    pub fn cleared(&self, counter: u64) -> Result<Ledger, Refusal> {
        Ok(Ledger {
            counters: cleared_counters(&self.counters, counter)?,
            ..self.clone()
        })
    }

    /// A host that restores a ledger: the count of a group or, after those, a named counter.
    pub fn with_entry(&self, index: usize, value: u32) -> Ledger {
        let mut ledger = self.clone();
        match index.checked_sub(MOST_GROUPS) {
            None => ledger.group_counts[index] = value,
            Some(counter) => ledger.counters[counter] = value,
        }
        ledger
    }

    /// "Charged: own count and each named counter plus 1, last time set to the request's."
    pub fn charged(&self, group: &Group, place: usize, time: u64) -> Ledger {
        let mut ledger = self.clone();
        ledger.group_counts[place] += 1;
        for limit in &group.limits {
            if let Sort::Counter(counter) = limit.sort {
                ledger.counters[usize::from(counter)] += 1;
            }
        }
        ledger.last_time = time;
        ledger
    }
}

/// "Clear: one named counter to zero." Refusal 10: a counter over 255.
pub fn cleared_counters(
    counters: &[u32; COUNTERS],
    counter: u64,
) -> Result<[u32; COUNTERS], Refusal> {
    if counter >= COUNTERS as u64 {
        return Err(Refusal::NoSuchNumber);
    }
    let mut cleared = *counters;
    cleared[counter as usize] = 0;
    Ok(cleared)
}

#[cfg(test)]
mod tests {
    use super::*;

    #[test]
    fn clear_and_load() {
        let mut ledger = Ledger::fresh();
        ledger.counters[255] = 4;
        ledger.group_counts[63] = 4;
        assert_eq!(ledger.cleared(256), Err(Refusal::NoSuchNumber));
        assert_eq!(ledger.cleared(u64::MAX), Err(Refusal::NoSuchNumber));
        assert_eq!(ledger.cleared(255).unwrap().counters[255], 0);
        let loaded = ledger.loaded(u64::MAX);
        assert_eq!((loaded.counters[255], loaded.group_counts[63]), (4, 0));
        assert_eq!((loaded.load_time, loaded.last_time), (u64::MAX, u64::MAX));
    }
}
