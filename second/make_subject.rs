//! Makes calls of the subject writer and the numbers of clears.

use crate::acl::{Acl, Sort};
use crate::call::Call;
use crate::ledger::COUNTERS;
use crate::maker::Maker;
use crate::script::LONGEST_BYTES;
use crate::subject::{hashes_length, write_subject, LAST_SUITE};

impl Maker {
    pub fn subject_call(&mut self) -> Call {
        let certificate = self.number_near(3, 5);
        let suite = self.number_near(1, LAST_SUITE);
        let right = hashes_length(certificate);
        let other = self.random.pick(&[0, 1, 20, 59, 60, 61, 79, 80, 81, 100]);
        let length = self.random.pick_weighted(&[(80, right), (20, other)]);
        let hashes = self.random_bytes(length);
        let buffer = self.lent_buffer(certificate, suite);
        Call::Subject {
            certificate,
            suite,
            hashes,
            buffer,
        }
    }

    /// Mostly a number of that range, else one beside it or a huge one, also one equal to it in its
    /// low bits.
    fn number_near(&mut self, low: u64, high: u64) -> u64 {
        let number = self.random.between(low, high);
        let beside = self.random.below(high + 3);
        let high_bit = number | 1 << self.random.pick(&[8, 16, 32, 63]);
        self.random.pick_weighted(&[
            (82, number),
            (12, beside),
            (4, high_bit),
            (1, u64::MAX),
            (1, low - 1),
        ])
    }

    /// A buffer with old bytes in it: exact, one short, longer, empty or of any length.
    fn lent_buffer(&mut self, certificate: u64, suite: u64) -> Vec<u8> {
        let hashes = vec![0; hashes_length(certificate)];
        let exact = write_subject(certificate, suite, &hashes, &mut [0; 200]).unwrap_or(100);
        let longer = exact + self.random.place(40);
        let any = self.random.place(160);
        let choices = [
            (300, exact),
            (150, exact - 1),
            (80, exact + 1),
            (250, longer),
            (40, 0),
            (60, any),
            (1, LONGEST_BYTES),
        ];
        let length = self.random.pick_weighted(&choices);
        if self.random.chance(20) {
            return vec![0; length];
        }
        self.random_bytes(length)
    }

    pub fn random_bytes(&mut self, length: usize) -> Vec<u8> {
        (0..length).map(|_| self.random.next() as u8).collect()
    }

    /// A counter to clear: one that the ACL names, one that is not zero, or one at an edge.
    pub fn counter_to_clear(&mut self, acl: &Acl) -> u64 {
        let named: Vec<u64> = acl
            .groups
            .iter()
            .flat_map(|group| &group.limits)
            .filter_map(|limit| match limit.sort {
                Sort::Counter(counter) => Some(u64::from(counter)),
                _ => None,
            })
            .collect();
        let running: Vec<u64> = (0..COUNTERS as u64)
            .filter(|&c| self.ledger.counters[c as usize] != 0)
            .collect();
        match self.random.weighted(&[35, 25, 25, 15]) {
            0 if !named.is_empty() => self.random.pick(&named),
            1 if !running.is_empty() => self.random.pick(&running),
            2 => self.random.pick(&[0, 95, 96, 254, 255, 256, 257]),
            3 => self.huge_number(),
            _ => self.random.below(COUNTERS as u64),
        }
    }

    /// Numbers over 255, whose low bits are a counter's number.
    fn huge_number(&mut self) -> u64 {
        let low = self.random.below(COUNTERS as u64);
        self.random.pick(&[
            low + 256,
            low + 512,
            low + (1 << 16),
            low + (1 << 32),
            low + (1 << 63),
            u64::MAX,
        ])
    }
}
