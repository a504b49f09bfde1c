//! Blob files: a blob stored on a device, in place of one returned to the host.

use crate::record::{malformed_unless, part_if, Hash, Record, Refusal};

/// "A record of kind 15 [...] with a device mask (4-7, flag 0) and an ACL template hash (8-27, flag
/// 1)." In an action both are restrictions; in a request the mask is the one device.
#[derive(Clone, Copy, Debug, Default, PartialEq)]
pub struct BlobFile {
    pub devices: Option<u32>,
    pub template: Option<Hash>,
}

/// The flag of an action or a request that says that the next record is of kind 15.
pub const BLOBFILE_FLAG: u32 = 6;
/// That flag's bit among the listed ones.
pub const BLOBFILE_BIT: u16 = 1 << BLOBFILE_FLAG;

impl BlobFile {
    /// The record directly after the one whose flag 6 is set.
    pub fn read(record: Record) -> Result<BlobFile, Refusal> {
        malformed_unless(record.kind() == 15)?;
        let devices_part = part_if(record.flag(0), (4, 7));
        let template_part = part_if(record.flag(1), (8, 27));
        record.check_zeros(0b11, &[devices_part, template_part])?;
        Ok(BlobFile {
            devices: record.flag(0).then(|| record.number32(4)),
            template: record.hash_if(1, 8),
        })
    }

    /// A request's record "states exactly one device".
    pub fn read_asked(record: Record) -> Result<BlobFile, Refusal> {
        let file = BlobFile::read(record)?;
        let one_device = |devices: u32| devices.count_ones() == 1;
        malformed_unless(file.devices.is_some_and(one_device))?;
        Ok(file)
    }
}

/// "With blobfile the action admits only such a request, with device in the mask and template equal
/// where restricted; without it, only a blob returned to the host."
pub fn blobfile_admits(allowed: &Option<BlobFile>, asked: &Option<BlobFile>) -> bool {
    match (allowed, asked) {
        (None, None) => true,
        (Some(allowed), Some(asked)) => is_within(asked, allowed),
        _ => false,
    }
}

/// "A narrowing keeps flag 6 as it is, may add or tighten the mask or add a template, never drop
/// either." A request within an action's restrictions is told by the same rule.
pub fn blobfile_is_narrower(new: &Option<BlobFile>, old: &Option<BlobFile>) -> bool {
    blobfile_admits(old, new)
}

/// Whether each restriction of the one is answered by the other.
fn is_within(inner: &BlobFile, outer: &BlobFile) -> bool {
    let devices_good = match (outer.devices, inner.devices) {
        (None, _) => true,
        (Some(_), None) => false,
        (Some(outer), Some(inner)) => inner & !outer == 0,
    };
    devices_good && (outer.template.is_none() || outer.template == inner.template)
}

#[cfg(test)]
mod tests {
    use super::*;
    use crate::encode;

    fn file(devices: Option<u32>, template: Option<u8>) -> BlobFile {
        BlobFile {
            devices,
            template: template.map(|number| [number; 20]),
        }
    }

    #[test]
    fn what_is_written_is_read_back() {
        for file in [
            file(None, None),
            file(Some(0), Some(0)),
            file(Some(u32::MAX), None),
            file(None, Some(3)),
        ] {
            let record = encode::blobfile_record(&file);
            assert_eq!(BlobFile::read(Record::of(&record)), Ok(file));
        }
    }

    #[test]
    fn a_request_states_exactly_one_device() {
        let read =
            |file: BlobFile| BlobFile::read_asked(Record::of(&encode::blobfile_record(&file)));
        for bit in 0..32 {
            assert!(read(file(Some(1 << bit), None)).is_ok());
            assert!(read(file(Some(1 << bit), Some(1))).is_ok());
        }
        for devices in [None, Some(0), Some(3), Some(0x8000_0001), Some(u32::MAX)] {
            assert_eq!(read(file(devices, None)), Err(Refusal::Malformed));
        }
    }

    #[test]
    fn only_such_a_request() {
        let asked = |device, template| Some(file(Some(device), template));
        let any = Some(BlobFile::default());
        assert!(blobfile_admits(&None, &None));
        assert!(!blobfile_admits(&None, &asked(1, None)));
        assert!(!blobfile_admits(&any, &None));
        assert!(blobfile_admits(&any, &asked(1 << 31, Some(7))));
        let masked = Some(file(Some(0b101), None));
        assert!(blobfile_admits(&masked, &asked(4, None)));
        assert!(!blobfile_admits(&masked, &asked(2, None)));
        assert!(!blobfile_admits(
            &Some(file(Some(0), None)),
            &asked(1, None)
        ));
        let templated = Some(file(None, Some(7)));
        assert!(blobfile_admits(&templated, &asked(1, Some(7))));
        assert!(!blobfile_admits(&templated, &asked(1, Some(8))));
        assert!(!blobfile_admits(&templated, &asked(1, None)));
    }

    #[test]
    fn narrower() {
        let narrower = |new, old| blobfile_is_narrower(&Some(new), &Some(old));
        assert!(narrower(file(Some(1), Some(2)), file(None, None)));
        assert!(narrower(file(Some(1), None), file(Some(3), None)));
        assert!(!narrower(file(Some(4), None), file(Some(3), None)));
        assert!(!narrower(file(None, None), file(Some(3), None)));
        assert!(!narrower(file(None, None), file(None, Some(2))));
        assert!(!narrower(file(None, Some(3)), file(None, Some(2))));
        assert!(!blobfile_is_narrower(&None, &Some(file(None, None))));
        assert!(!blobfile_is_narrower(&Some(file(None, None)), &None));
    }
}
