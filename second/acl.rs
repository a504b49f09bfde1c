//! What an ACL says: groups, each with its limits and its actions.

use crate::blobfile::BlobFile;
use crate::record::{malformed_unless, Hash, Record, Refusal};

pub const MOST_GROUPS: usize = 64;
pub const MOST_LIMITS: usize = 4;
pub const MOST_ACTIONS: usize = 8;
/// "An ACL may then reach 86,016 bytes": each action of each group with its kind 15 record.
pub const MOST_ACL_RECORDS: usize = MOST_GROUPS * (1 + MOST_LIMITS + 2 * MOST_ACTIONS);

#[derive(Clone, Debug, Default, PartialEq)]
pub struct Acl {
    pub groups: Vec<Group>,
}

#[derive(Clone, Debug, Default, PartialEq)]
pub struct Group {
    pub certifier: Option<Hash>,
    pub mechanism: Option<u16>,
    pub limits: Vec<Limit>,
    pub actions: Vec<Action>,
}

impl Group {
    /// "Open means no certifier."
    pub fn is_open(&self) -> bool {
        self.certifier.is_none()
    }
}

#[derive(Clone, Copy, Debug, PartialEq)]
pub struct Limit {
    pub sort: Sort,
    pub maximum: u32,
}

/// What a limit counts.
#[derive(Clone, Copy, Debug, PartialEq)]
pub enum Sort {
    UsesPerLoad,
    Counter(u8),
    SecondsSinceLoad,
}

#[derive(Clone, Debug, PartialEq)]
pub enum Action {
    /// Sixteen permission bits.
    OpPermissions(u16),
    MakeBlob(MakeBlob),
    MakeArchiveBlob(MakeArchiveBlob),
}

impl Action {
    /// Whether it is a MakeArchiveBlob without kahash.
    pub fn lacks_kahash(&self) -> bool {
        matches!(self, Action::MakeArchiveBlob(blob) if blob.kahash.is_none())
    }

    /// Its blobfile, where it is an action that may have one.
    pub fn blobfile(&self) -> Option<BlobFile> {
        match self {
            Action::OpPermissions(_) => None,
            Action::MakeBlob(blob) => blob.blobfile,
            Action::MakeArchiveBlob(blob) => blob.blobfile,
        }
    }

    /// The place of its blobfile, where it is an action that may have one.
    pub fn blobfile_mut(&mut self) -> Option<&mut Option<BlobFile>> {
        match self {
            Action::OpPermissions(_) => None,
            Action::MakeBlob(blob) => Some(&mut blob.blobfile),
            Action::MakeArchiveBlob(blob) => Some(&mut blob.blobfile),
        }
    }
}

#[derive(Clone, Debug, Default, PartialEq)]
pub struct MakeBlob {
    pub allow_km_only: bool,
    pub allow_non_km0: bool,
    pub allow_null_km_token: bool,
    pub kmhash: Option<Hash>,
    pub kthash: Option<Hash>,
    pub ktparams: Option<TokenParameters>,
    pub blobfile: Option<BlobFile>,
}

#[derive(Clone, Debug, Default, PartialEq)]
pub struct MakeArchiveBlob {
    pub kahash: Option<Hash>,
    pub mechanism: u16,
    pub blobfile: Option<BlobFile>,
}

#[derive(Clone, Copy, Debug, PartialEq)]
pub struct TokenParameters {
    /// Bit 0 is AllowSoftSlots.
    pub flags: u16,
    pub needed: u8,
    pub total: u8,
    /// 0 means none.
    pub time_limit: u32,
}

pub const ALLOW_SOFT_SLOTS: u16 = 1;
const MOST_SHARES: u8 = 64;

impl TokenParameters {
    /// The eight bytes from `place` on: "2 bytes of flags (bit 0 AllowSoftSlots), shares needed,
    /// shares total (1 <= needed <= total <= 64), 4-byte time limit".
    pub fn read(record: Record, place: usize) -> Result<TokenParameters, Refusal> {
        let parameters = TokenParameters {
            flags: record.number16(place),
            needed: record.byte(place + 2),
            total: record.byte(place + 3),
            time_limit: record.number32(place + 4),
        };
        let flags_good = parameters.flags & !ALLOW_SOFT_SLOTS == 0;
        let shares_good = 1 <= parameters.needed
            && parameters.needed <= parameters.total
            && parameters.total <= MOST_SHARES;
        malformed_unless(flags_good && shares_good)?;
        Ok(parameters)
    }

    /// "Tighter: flags a subset, needed no smaller, total no larger, and a non-zero time limit
    /// answered by a non-zero one no larger." Equal parameters pass too.
    pub fn no_looser_than(self, other: TokenParameters) -> bool {
        let time_good =
            other.time_limit == 0 || (self.time_limit != 0 && self.time_limit <= other.time_limit);
        self.flags & !other.flags == 0
            && self.needed >= other.needed
            && self.total <= other.total
            && time_good
    }
}

#[cfg(test)]
mod tests {
    use super::*;

    fn parameters(flags: u16, needed: u8, total: u8, time_limit: u32) -> TokenParameters {
        TokenParameters {
            flags,
            needed,
            total,
            time_limit,
        }
    }

    #[test]
    fn tighter_token_parameters() {
        let named = parameters(1, 2, 5, 60);
        assert!(named.no_looser_than(named));
        assert!(parameters(0, 3, 4, 59).no_looser_than(named));
        assert!(!parameters(1, 1, 5, 60).no_looser_than(named));
        assert!(!parameters(1, 2, 6, 60).no_looser_than(named));
        assert!(!parameters(1, 2, 5, 61).no_looser_than(named));
        assert!(!parameters(1, 2, 5, 0).no_looser_than(named));
        assert!(!parameters(1, 2, 5, 0).no_looser_than(parameters(0, 2, 5, 0)));
        assert!(parameters(0, 2, 5, 7).no_looser_than(parameters(0, 2, 5, 0)));
    }
}
