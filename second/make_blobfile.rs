//! Makes blob files for actions and requests: matching, or off by one thing.

use crate::blobfile::BlobFile;
use crate::maker::{stock, Maker, ZERO_HASH};
use crate::record::Hash;

impl Maker {
    fn template(&mut self) -> Hash {
        self.random
            .pick(&[stock(b'b', 0), stock(b'b', 0), stock(b'b', 1), ZERO_HASH])
    }

    fn device_mask(&mut self) -> u32 {
        let any = self.random.next() as u32;
        let one = 1 << self.random.below(32);
        self.random
            .pick(&[1, 3, 3, 6, one, any, any, 0x8000_0000, u32::MAX, 0])
    }

    /// What an action may restrict.
    pub fn blobfile(&mut self) -> BlobFile {
        BlobFile {
            devices: self.random.chance(65).then(|| self.device_mask()),
            template: self.random.chance(45).then(|| self.template()),
        }
    }

    pub fn maybe_blobfile(&mut self) -> Option<BlobFile> {
        self.random.chance(28).then(|| self.blobfile())
    }

    /// One device of the mask, where it has one.
    fn device_of(&mut self, mask: u32) -> u32 {
        let devices: Vec<u32> = (0..32)
            .map(|bit| 1 << bit)
            .filter(|device| mask & device != 0)
            .collect();
        if devices.is_empty() {
            return 1;
        }
        self.random.pick(&devices)
    }

    /// A request's blob file for an action that has such a one or none, mostly matching, else off
    /// by one thing.
    pub fn asked_blobfile(&mut self, allowed: Option<BlobFile>) -> Option<BlobFile> {
        if self.random.chance(8) {
            let other = self.asked_within(BlobFile::default());
            return allowed.is_none().then_some(other);
        }
        let mut asked = self.asked_within(allowed?);
        if self.random.chance(30) {
            let other = 1 << self.random.below(32);
            match self.random.below(7) {
                0 => asked.devices = Some(other),
                1 => asked.devices = asked.devices.map(|device| device.rotate_left(1)),
                2 => asked.template = None,
                3 => asked.template = asked.template.map(|hash| self.near(hash)),
                // No device, none named, or two: malformed.
                4 => asked.devices = Some(0),
                5 => asked.devices = None,
                _ => asked.devices = asked.devices.map(|device| device | other),
            }
        }
        Some(asked)
    }

    pub fn asked_within(&mut self, allowed: BlobFile) -> BlobFile {
        let mask = allowed.devices.unwrap_or(u32::MAX);
        let other = self.random.chance(40).then(|| self.template());
        BlobFile {
            devices: Some(self.device_of(mask)),
            template: allowed.template.or(other),
        }
    }

    /// A mask added or tightened, or a template added.
    pub fn narrowed_blobfile(&mut self, source: BlobFile) -> BlobFile {
        let mut file = source;
        let mask = self.device_mask();
        if self.random.chance(60) {
            file.devices = Some(source.devices.unwrap_or(u32::MAX) & mask);
        } else {
            file.template = Some(source.template.unwrap_or_else(|| self.template()));
        }
        file
    }

    /// A device that the mask lacks, added to it.
    pub fn widened_mask(&mut self, mask: u32) -> Option<u32> {
        let missing = self.device_of(!mask);
        (mask & missing == 0).then_some(mask | missing)
    }
}

#[cfg(test)]
mod tests {
    use super::*;
    use crate::blobfile::{blobfile_admits, blobfile_is_narrower};

    #[test]
    fn matching_requests_are_admitted_and_narrowings_narrow() {
        let mut maker = Maker::new(12, true);
        for _ in 0..500 {
            let allowed = maker.blobfile();
            let asked = maker.asked_within(allowed);
            let empty_mask = allowed.devices == Some(0);
            assert!(empty_mask || blobfile_admits(&Some(allowed), &Some(asked)));
            let narrowed = maker.narrowed_blobfile(allowed);
            assert!(blobfile_is_narrower(&Some(narrowed), &Some(allowed)));
        }
    }
}
