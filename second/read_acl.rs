//! Reading ACLs: groups, each followed by its limits, then its actions.

use crate::acl::{
    Acl, Action, Group, Limit, MakeArchiveBlob, MakeBlob, Sort, TokenParameters, MOST_ACL_RECORDS,
    MOST_ACTIONS, MOST_GROUPS, MOST_LIMITS,
};
use crate::blobfile::{BlobFile, BLOBFILE_BIT, BLOBFILE_FLAG};
use crate::record::{
    check_length, malformed_unless, part_if, push_up_to, records, Record, Refusal,
};

/// Refusal 1 for an ACL file.
pub fn check_acl_length(file: &[u8]) -> Result<(), Refusal> {
    check_length(file, MOST_ACL_RECORDS)
}

/// Reads an ACL file from its first record; the first bad record answers.
pub fn read_acl(file: &[u8]) -> Result<Acl, Refusal> {
    let mut reader = AclReader::default();
    for record in records(file) {
        reader.add(record)?;
    }
    reader.end()
}

/// Takes an ACL's records one by one, whether they come from a file or from a listing.
#[derive(Default)]
pub struct AclReader {
    acl: Acl,
    /// Whether the last action's flag 6 says that a kind 15 record comes next.
    blobfile_due: bool,
}

impl AclReader {
    pub fn add(&mut self, record: Record) -> Result<(), Refusal> {
        if self.blobfile_due {
            return self.add_blobfile(record);
        }
        match record.kind() {
            1 => self.add_group(record),
            2 => self.add_limit(record),
            3..=5 => self.add_action(record),
            _ => Err(Refusal::Malformed),
        }
    }

    /// "An end where kind 15 is due gives 2."
    pub fn end(self) -> Result<Acl, Refusal> {
        malformed_unless(!self.blobfile_due)?;
        Ok(self.acl)
    }

    fn add_group(&mut self, record: Record) -> Result<(), Refusal> {
        let group = read_group(record)?;
        push_up_to(&mut self.acl.groups, group, MOST_GROUPS)
    }

    /// The group whose limits and actions are being read; before the first, neither is in place.
    fn group(&mut self) -> Result<&mut Group, Refusal> {
        self.acl.groups.last_mut().ok_or(Refusal::Malformed)
    }

    fn add_limit(&mut self, record: Record) -> Result<(), Refusal> {
        let limit = read_limit(record)?;
        let group = self.group()?;
        // A limit after an action of its group is out of place.
        malformed_unless(group.actions.is_empty())?;
        // "One group has at most one limit of sort 1, one of sort 3, and never one counter twice
        // (else 2)."
        let is_new = |earlier: &Limit| earlier.sort != limit.sort;
        malformed_unless(group.limits.iter().all(is_new))?;
        push_up_to(&mut group.limits, limit, MOST_LIMITS)
    }

    fn add_action(&mut self, record: Record) -> Result<(), Refusal> {
        let action = read_action(record)?;
        let group = self.group()?;
        // "A MakeArchiveBlob entry lacking kahash in an open group is a loophole [...] given while
        // the action record is read, after 2 and 3."
        let loophole = group.is_open() && action.lacks_kahash();
        let blobfile_due = action.blobfile().is_some();
        push_up_to(&mut group.actions, action, MOST_ACTIONS)?;
        if loophole {
            return Err(Refusal::OpenArchive);
        }
        self.blobfile_due = blobfile_due;
        Ok(())
    }

    /// "A record of kind 15 directly after a MakeBlob or MakeArchiveBlob action whose new flag 6
    /// says it is present".
    fn add_blobfile(&mut self, record: Record) -> Result<(), Refusal> {
        let file = BlobFile::read(record)?;
        let action = self.group()?.actions.last_mut();
        if let Some(place) = action.and_then(Action::blobfile_mut) {
            *place = Some(file);
        }
        self.blobfile_due = false;
        Ok(())
    }
}

/// "1 group: flag 0 certifier (4-23), flag 1 mechanism (24-25, not zero; needs flag 0)."
fn read_group(record: Record) -> Result<Group, Refusal> {
    let has_certifier = record.flag(0);
    let has_mechanism = record.flag(1);
    record.check_zeros(
        0b11,
        &[
            part_if(has_certifier, (4, 23)),
            part_if(has_mechanism, (24, 25)),
        ],
    )?;
    let mechanism = has_mechanism.then(|| record.number16(24));
    malformed_unless(mechanism != Some(0))?;
    malformed_unless(has_certifier || !has_mechanism)?;
    Ok(Group {
        certifier: record.hash_if(0, 4),
        mechanism,
        limits: Vec::new(),
        actions: Vec::new(),
    })
}

/// "2 limit: byte 4 sort (1 uses per load, 2 named counter, 3 seconds since load), byte 5 counter
/// 0-255 (sort 2 only, else zero), 8-11 maximum."
fn read_limit(record: Record) -> Result<Limit, Refusal> {
    record.check_zeros(0, &[(4, 5), (8, 11)])?;
    let sort = match (record.byte(4), record.byte(5)) {
        (1, 0) => Sort::UsesPerLoad,
        (2, counter) => Sort::Counter(counter),
        (3, 0) => Sort::SecondsSinceLoad,
        _ => return Err(Refusal::Malformed),
    };
    Ok(Limit {
        sort,
        maximum: record.number32(8),
    })
}

/// An action's own record. Where its flag 6 is set, its blobfile is still to be read.
fn read_action(record: Record) -> Result<Action, Refusal> {
    match record.kind() {
        3 => read_op_permissions(record),
        4 => read_make_blob(record),
        _ => read_make_archive_blob(record),
    }
}

/// "3 OpPermissions: 4-5, sixteen bits."
fn read_op_permissions(record: Record) -> Result<Action, Refusal> {
    record.check_zeros(0, &[(4, 5)])?;
    Ok(Action::OpPermissions(record.number16(4)))
}

/// "4 MakeBlob: flags 0 AllowKmOnly, 1 AllowNonKm0, 2 kmhash (4-23), 3 kthash (24-43), 4 ktparams
/// (44-51), 5 AllowNullKmToken"; flag 6 blobfile.
fn read_make_blob(record: Record) -> Result<Action, Refusal> {
    let kmhash_part = part_if(record.flag(2), (4, 23));
    let kthash_part = part_if(record.flag(3), (24, 43));
    let ktparams_part = part_if(record.flag(4), (44, 51));
    record.check_zeros(
        0b11_1111 | BLOBFILE_BIT,
        &[kmhash_part, kthash_part, ktparams_part],
    )?;
    let ktparams = if record.flag(4) {
        Some(TokenParameters::read(record, 44)?)
    } else {
        None
    };
    Ok(Action::MakeBlob(MakeBlob {
        allow_km_only: record.flag(0),
        allow_non_km0: record.flag(1),
        allow_null_km_token: record.flag(5),
        kmhash: record.hash_if(2, 4),
        kthash: record.hash_if(3, 24),
        ktparams,
        blobfile: record.flag(BLOBFILE_FLAG).then(BlobFile::default),
    }))
}

/// "5 MakeArchiveBlob: flag 0 kahash (4-23); mechanism 24-25, not zero"; flag 6 blobfile.
fn read_make_archive_blob(record: Record) -> Result<Action, Refusal> {
    let kahash_part = part_if(record.flag(0), (4, 23));
    record.check_zeros(0b1 | BLOBFILE_BIT, &[kahash_part, (24, 25)])?;
    let mechanism = record.number16(24);
    malformed_unless(mechanism != 0)?;
    Ok(Action::MakeArchiveBlob(MakeArchiveBlob {
        kahash: record.hash_if(0, 4),
        mechanism,
        blobfile: record.flag(BLOBFILE_FLAG).then(BlobFile::default),
    }))
}

#[cfg(test)]
mod tests {
    use super::*;
    use crate::encode;

    fn parameters(flags: u16, needed: u8, total: u8, time_limit: u32) -> TokenParameters {
        TokenParameters {
            flags,
            needed,
            total,
            time_limit,
        }
    }

    #[test]
    fn what_is_written_is_read_back() {
        let blob = MakeBlob {
            allow_km_only: true,
            allow_non_km0: false,
            allow_null_km_token: true,
            kmhash: Some([3; 20]),
            kthash: None,
            ktparams: Some(parameters(1, 1, 64, 9)),
            blobfile: Some(BlobFile {
                devices: Some(0),
                template: None,
            }),
        };
        let group = Group {
            certifier: Some([0; 20]),
            mechanism: Some(7),
            limits: vec![
                Limit {
                    sort: Sort::SecondsSinceLoad,
                    maximum: 0,
                },
                Limit {
                    sort: Sort::Counter(255),
                    maximum: u32::MAX,
                },
            ],
            actions: vec![
                Action::MakeBlob(blob),
                Action::OpPermissions(0x8001),
                Action::MakeArchiveBlob(MakeArchiveBlob {
                    kahash: Some([9; 20]),
                    mechanism: 0x1234,
                    blobfile: Some(BlobFile {
                        devices: None,
                        template: Some([0; 20]),
                    }),
                }),
            ],
        };
        let acl = Acl {
            groups: vec![Group::default(), group],
        };
        assert_eq!(read_acl(&encode::acl(&acl)), Ok(acl));
    }

    fn acl_of(limits: &[Sort], actions: usize) -> Vec<u8> {
        let group = Group {
            limits: limits
                .iter()
                .map(|&sort| Limit { sort, maximum: 1 })
                .collect(),
            actions: vec![Action::OpPermissions(16); actions],
            ..Group::default()
        };
        encode::acl(&Acl {
            groups: vec![group],
        })
    }

    #[test]
    fn too_many_comes_after_malformed() {
        let five = [
            Sort::UsesPerLoad,
            Sort::Counter(1),
            Sort::Counter(2),
            Sort::SecondsSinceLoad,
            Sort::Counter(3),
        ];
        assert_eq!(read_acl(&acl_of(&five, 0)), Err(Refusal::TooMany));
        let repeated = [
            Sort::UsesPerLoad,
            Sort::Counter(1),
            Sort::Counter(2),
            Sort::Counter(3),
            Sort::Counter(1),
        ];
        assert_eq!(read_acl(&acl_of(&repeated, 0)), Err(Refusal::Malformed));
        assert!(read_acl(&acl_of(&five[..4], 8)).is_ok());
        assert_eq!(read_acl(&acl_of(&[], 9)), Err(Refusal::TooMany));
        let groups = Acl {
            groups: vec![Group::default(); 65],
        };
        let allowed = &encode::acl(&groups)[64..];
        assert_eq!(read_acl(allowed).map(|acl| acl.groups.len()), Ok(64));
        assert_eq!(read_acl(&encode::acl(&groups)), Err(Refusal::TooMany));
    }

    #[test]
    fn an_open_archive_action_without_a_key() {
        let file = |certifier, before, mechanism| {
            let mut actions = vec![Action::OpPermissions(16); before];
            actions.push(Action::MakeArchiveBlob(MakeArchiveBlob {
                kahash: None,
                mechanism,
                blobfile: None,
            }));
            let group = Group {
                certifier,
                actions,
                ..Group::default()
            };
            // A malformed record after it is no longer looked at.
            [
                encode::acl(&Acl {
                    groups: vec![group],
                }),
                vec![0; 64],
            ]
            .concat()
        };
        assert_eq!(read_acl(&file(None, 7, 1)), Err(Refusal::OpenArchive));
        assert_eq!(read_acl(&file(None, 8, 1)), Err(Refusal::TooMany));
        assert_eq!(read_acl(&file(None, 8, 0)), Err(Refusal::Malformed));
        let certified = file(Some([0; 20]), 7, 1);
        assert!(read_acl(&certified[..certified.len() - 64]).is_ok());
    }

    #[test]
    fn a_blobfile_record_where_it_is_due_and_nowhere_else() {
        let file = BlobFile {
            devices: Some(3),
            template: None,
        };
        let blob = Action::MakeBlob(MakeBlob {
            blobfile: Some(file),
            ..MakeBlob::default()
        });
        let group = encode::group_record(&Group::default());
        let (action, stored) = (encode::action_record(&blob), encode::blobfile_record(&file));
        let read = |records: &[[u8; 64]]| read_acl(&records.concat()).map(|_| ());
        assert_eq!(read(&[group, action, stored]), Ok(()));
        for bad in [
            &[group, action][..],
            &[group, action, action, stored],
            &[group, action, group],
            &[group, action, stored, stored],
            &[group, stored],
            &[stored],
        ] {
            assert_eq!(read(bad), Err(Refusal::Malformed));
        }
        // Kind 15 does not count as an action.
        let eight = [vec![group], [action, stored].repeat(8)].concat();
        assert_eq!(read(&eight), Ok(()));
        assert_eq!(
            read(&[&eight[..], &[action]].concat()),
            Err(Refusal::TooMany)
        );
    }
}
