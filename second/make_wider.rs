//! Makes an action wider than its source in exactly one way.

use crate::acl::{Action, MakeArchiveBlob, MakeBlob};
use crate::blobfile::BlobFile;
use crate::make_breach::Breach;
use crate::maker::Maker;

impl Maker {
    /// The new action, wider than its source in exactly that way; nothing where it cannot be.
    pub fn widened(&mut self, action: &Action, source: &Action, breach: Breach) -> Option<Action> {
        let mut wider = action.clone();
        let done = match (&mut wider, source) {
            (_, _) if breach == Breach::OtherKind => {
                wider = self.action();
                kind(&wider) != kind(source)
            }
            (Action::OpPermissions(bits), Action::OpPermissions(old)) => {
                self.widen_permissions(bits, *old, breach)
            }
            (Action::MakeBlob(blob), Action::MakeBlob(old)) => {
                self.widen_blob(blob, old, breach)
                    || self.widen_blobfile(&mut blob.blobfile, &old.blobfile, breach)
            }
            (Action::MakeArchiveBlob(blob), Action::MakeArchiveBlob(old)) => {
                self.widen_archive(blob, old, breach)
                    || self.widen_blobfile(&mut blob.blobfile, &old.blobfile, breach)
            }
            _ => false,
        };
        done.then_some(wider)
    }

    fn widen_permissions(&mut self, bits: &mut u16, old: u16, breach: Breach) -> bool {
        let missing: Vec<u16> = (0..16)
            .map(|bit| 1 << bit)
            .filter(|bit| old & bit == 0)
            .collect();
        if breach != Breach::BitAdded || missing.is_empty() {
            return false;
        }
        // Dropping another bit keeps a wider action from always being the larger number.
        *bits = *bits & self.mask() | self.random.pick(&missing);
        true
    }

    fn widen_archive(
        &mut self,
        blob: &mut MakeArchiveBlob,
        old: &MakeArchiveBlob,
        breach: Breach,
    ) -> bool {
        match breach {
            Breach::KahashDropped if old.kahash.is_some() => blob.kahash = None,
            Breach::KahashChanged if old.kahash.is_some() => {
                blob.kahash = blob.kahash.map(|hash| self.near(hash))
            }
            Breach::ArchiveMechanismChanged => {
                blob.mechanism = self.other_mechanism(blob.mechanism)
            }
            _ => return false,
        }
        true
    }

    fn widen_blobfile(
        &mut self,
        new: &mut Option<BlobFile>,
        old: &Option<BlobFile>,
        breach: Breach,
    ) -> bool {
        let (Some(file), Some(old)) = (&mut *new, old) else {
            let added = breach == Breach::BlobfileAdded;
            *new = added.then(|| self.blobfile());
            return added;
        };
        match breach {
            Breach::BlobfileDropped => *new = None,
            Breach::MaskDropped if old.devices.is_some() => file.devices = None,
            Breach::DeviceAdded => {
                let wider = old.devices.and_then(|mask| self.widened_mask(mask));
                file.devices = wider.or(file.devices);
                return wider.is_some();
            }
            Breach::TemplateDropped if old.template.is_some() => file.template = None,
            Breach::TemplateChanged if old.template.is_some() => {
                file.template = file.template.map(|hash| self.near(hash))
            }
            _ => return false,
        }
        true
    }

    fn widen_blob(&mut self, blob: &mut MakeBlob, old: &MakeBlob, breach: Breach) -> bool {
        match breach {
            Breach::KmOnlyAdded if !old.allow_km_only => blob.allow_km_only = true,
            Breach::NonKm0Added if !old.allow_non_km0 => blob.allow_non_km0 = true,
            Breach::NullKmTokenAdded if !old.allow_null_km_token => blob.allow_null_km_token = true,
            Breach::KmhashDropped if old.kmhash.is_some() => blob.kmhash = None,
            Breach::KmhashChanged if old.kmhash.is_some() => {
                blob.kmhash = blob.kmhash.map(|hash| self.near(hash))
            }
            Breach::KthashDropped if old.kthash.is_some() => blob.kthash = None,
            Breach::KthashChanged if old.kthash.is_some() => {
                blob.kthash = blob.kthash.map(|hash| self.near(hash))
            }
            Breach::KtparamsDropped if old.ktparams.is_some() => blob.ktparams = None,
            _ => return self.loosen_parameters(blob, old, breach),
        }
        true
    }

    fn loosen_parameters(&mut self, blob: &mut MakeBlob, old: &MakeBlob, breach: Breach) -> bool {
        let (Some(parameters), Some(named)) = (&mut blob.ktparams, old.ktparams) else {
            return false;
        };
        match breach {
            Breach::TokenFlagAdded if named.flags == 0 => parameters.flags = 1,
            Breach::NeededSmaller if named.needed > 1 => parameters.needed = named.needed - 1,
            Breach::TotalLarger if named.total < 64 => parameters.total = named.total + 1,
            Breach::TimeLimitLarger if named.time_limit != 0 && named.time_limit < u32::MAX => {
                let more = named.time_limit + 1;
                parameters.time_limit = self.random.pick(&[more, more, u32::MAX]);
            }
            Breach::TimeLimitDropped if named.time_limit != 0 => parameters.time_limit = 0,
            _ => return false,
        }
        true
    }
}

/// The record kind of an action.
pub fn kind(action: &Action) -> u8 {
    match action {
        Action::OpPermissions(_) => 3,
        Action::MakeBlob(_) => 4,
        Action::MakeArchiveBlob(_) => 5,
    }
}
