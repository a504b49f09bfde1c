//! Makes ACLs near the edges of the rules.

use crate::acl::{
    Acl, Action, Group, Limit, MakeArchiveBlob, MakeBlob, Sort, MOST_ACTIONS, MOST_GROUPS,
    MOST_LIMITS,
};
use crate::blobfile::BlobFile;
use crate::maker::{Maker, ZERO_HASH};

/// Whether some action of the group has that permission's bit.
pub fn allows(group: &Group, permission: u8) -> bool {
    group.actions.iter().any(|action| match action {
        Action::OpPermissions(bits) => bits >> permission & 1 == 1,
        _ => false,
    })
}

impl Maker {
    /// Permission bits; ReduceACL, Sign and ExpandACL are set more often than others.
    fn permissions(&mut self) -> u16 {
        let any = self.random.next() as u16;
        let some = any & self.random.next() as u16;
        match self.random.weighted(&[45, 20, 15, 6, 3, 11]) {
            0 => {
                some | self
                    .random
                    .pick(&[1 << 2, 1 << 4, 1 << 12, 1 << 2 | 1 << 12])
            }
            1 => 1 << self.random.below(16),
            2 => any,
            3 => u16::MAX,
            4 => 0,
            _ => 1 << 2 | 1 << 4,
        }
    }

    /// Every combination of the six flags; AllowKmOnly, and nothing about a token, more often.
    pub fn make_blob(&mut self) -> MakeBlob {
        let flags = self.random.next();
        let optional = |bit: u32| flags >> bit & 1 == 1;
        let about_token = !self.random.chance(25);
        MakeBlob {
            allow_km_only: optional(0) || optional(6),
            allow_non_km0: optional(1),
            allow_null_km_token: optional(2),
            kmhash: optional(3).then(|| self.module_key()),
            kthash: (about_token && optional(4)).then(|| self.token_hash()),
            ktparams: (about_token && optional(5)).then(|| self.token_parameters()),
            blobfile: self.maybe_blobfile(),
        }
    }

    pub fn archive_action(&mut self) -> Action {
        let kahash = self.random.chance(60).then(|| self.recovery_key());
        Action::MakeArchiveBlob(MakeArchiveBlob {
            kahash,
            mechanism: self.mechanism(),
            blobfile: self.maybe_blobfile(),
        })
    }

    pub fn action(&mut self) -> Action {
        match self.random.weighted(&[50, 32, 18]) {
            0 => Action::OpPermissions(self.permissions()),
            1 => Action::MakeBlob(self.make_blob()),
            _ => self.archive_action(),
        }
    }

    /// Where the thing that a limit counts stands now.
    fn standing(&self, place: usize, sort: Sort) -> u64 {
        match sort {
            Sort::UsesPerLoad => u64::from(self.ledger.group_counts[place.min(MOST_GROUPS - 1)]),
            Sort::Counter(counter) => u64::from(self.ledger.counters[usize::from(counter)]),
            Sort::SecondsSinceLoad => self.ledger.last_time - self.ledger.load_time,
        }
    }

    /// A maximum near where the counted thing stands now, mostly above it.
    pub fn maximum(&mut self, place: usize, sort: Sort) -> u32 {
        let standing = self.standing(place, sort);
        let ahead = self.random.between(1, 8);
        let maximum = match self.random.weighted(&[56, 16, 8, 3, 4, 3, 4, 6]) {
            0 => standing.saturating_add(ahead),
            1 => u64::from(u32::MAX),
            2 => standing,
            3 => standing.saturating_sub(1),
            4 => 0,
            5 => 1,
            6 => 2,
            _ => self.random.next() >> 32,
        };
        maximum.min(u64::from(u32::MAX)) as u32
    }

    /// A few counters are named far more often than the rest, so that they fill up.
    pub fn counter(&mut self) -> u8 {
        match self.random.below(8) {
            0 => self.random.pick(&[255, 255, 254, 128]),
            1 => self.random.pick(&[95, 96, 96, 97]),
            2 => 0,
            3 => self.random.next() as u8,
            _ => self.random.between(1, 5) as u8,
        }
    }

    pub fn sort(&mut self) -> Sort {
        match self.random.below(5) {
            0 | 1 => Sort::UsesPerLoad,
            2 | 3 => Sort::Counter(self.counter()),
            _ => Sort::SecondsSinceLoad,
        }
    }

    /// Adds a limit of a sort that the group does not have yet, if the draw gives one.
    pub fn add_limit(&mut self, group: &mut Group, place: usize) {
        let sort = self.sort();
        if group.limits.len() < MOST_LIMITS && group.limits.iter().all(|limit| limit.sort != sort) {
            let maximum = self.maximum(place, sort);
            group.limits.push(Limit { sort, maximum });
        }
    }

    /// A group for that place of an ACL.
    pub fn group(&mut self, place: usize) -> Group {
        let mut group = Group::default();
        if self.random.chance(28) {
            group.certifier = Some(self.certifier());
            group.mechanism = self.random.chance(50).then(|| self.mechanism());
        }
        for _ in 0..self
            .random
            .pick_weighted(&[(50, 0), (28, 1), (13, 2), (6, 3), (3, 5)])
        {
            self.add_limit(&mut group, place);
        }
        let actions =
            self.random
                .pick_weighted(&[(3, 0), (46, 1), (28, 2), (13, 3), (7, 5), (3, 8)]);
        group.actions = (0..actions).map(|_| self.action()).collect();
        self.name_keys(&mut group);
        group
    }

    /// Names a recovery key wherever an open group lacks it.
    pub fn name_keys(&mut self, group: &mut Group) {
        let open = group.is_open();
        for action in &mut group.actions {
            if let Action::MakeArchiveBlob(blob) = action {
                if open && blob.kahash.is_none() {
                    blob.kahash = Some(self.recovery_key());
                }
            }
        }
    }

    pub fn acl(&mut self) -> Acl {
        if self.random.once_in(400) {
            return self.full_acl();
        }
        if self.random.once_in(60) {
            return self.tall_acl();
        }
        let few = self.random.between(2, 4) as usize;
        let some = self.random.between(5, 17) as usize;
        let many = self.random.between(18, MOST_GROUPS as u64) as usize;
        let groups = self
            .random
            .pick_weighted(&[(3, 0), (32, 1), (54, few), (8, some), (3, many)]);
        Acl {
            groups: (0..groups).map(|place| self.group(place)).collect(),
        }
    }

    /// Sixty-four groups with one permission each, so that the last ones are reached too.
    fn tall_acl(&mut self) -> Acl {
        let mut acl = Acl::default();
        let skew = self.random.place(16);
        for place in 0..MOST_GROUPS {
            let mut group = self.group(place);
            group.actions = vec![Action::OpPermissions(1 << ((place + skew) % 16))];
            acl.groups.push(group);
        }
        acl
    }

    /// Sixty-four groups of four limits and eight actions; where every action has a blobfile it is
    /// the longest file.
    pub fn full_acl(&mut self) -> Acl {
        let all_stored = self.random.chance(50);
        Acl {
            groups: (0..MOST_GROUPS)
                .map(|place| self.full_group(place, all_stored))
                .collect(),
        }
    }

    fn full_group(&mut self, place: usize, all_stored: bool) -> Group {
        let mut group = self.group(place);
        while group.limits.len() < MOST_LIMITS {
            self.add_limit(&mut group, place);
        }
        while group.actions.len() < MOST_ACTIONS {
            let action = self.action();
            group.actions.push(action);
        }
        if all_stored {
            for action in &mut group.actions {
                let stored = MakeBlob {
                    blobfile: Some(self.blobfile()),
                    ..self.make_blob()
                };
                *action = Action::MakeBlob(stored);
            }
        }
        self.name_keys(&mut group);
        group
    }

    /// A group with a certifier, a mechanism, limits and all three kinds of action: something to
    /// break everywhere.
    pub fn rich_group(&mut self, place: usize) -> Group {
        let mut group = Group {
            certifier: Some(self.certifier()),
            ..Group::default()
        };
        group.mechanism = self.random.chance(75).then(|| self.mechanism());
        for _ in 0..3 {
            self.add_limit(&mut group, place);
        }
        let blob = MakeBlob {
            kmhash: Some(self.module_key()),
            kthash: Some(self.token_hash()),
            ktparams: Some(self.token_parameters()),
            blobfile: self.random.chance(50).then(|| self.full_blobfile()),
            ..self.make_blob()
        };
        group.actions = vec![
            Action::OpPermissions(self.permissions()),
            Action::MakeBlob(blob),
            Action::MakeBlob(self.make_blob()),
            Action::MakeArchiveBlob(MakeArchiveBlob {
                kahash: Some(self.recovery_key()),
                mechanism: self.mechanism(),
                blobfile: Some(self.full_blobfile()),
            }),
        ];
        self.random.shuffle(&mut group.actions);
        group
    }

    fn full_blobfile(&mut self) -> BlobFile {
        let BlobFile { devices, template } = self.blobfile();
        BlobFile {
            devices: devices.or(Some(6)),
            template: template.or(Some(ZERO_HASH)),
        }
    }

    /// Sees to it that some group allows that permission.
    pub fn allow(&mut self, acl: &mut Acl, permission: u8) {
        if acl.groups.iter().any(|group| allows(group, permission)) {
            return;
        }
        let bit = 1 << permission;
        if acl.groups.is_empty() {
            acl.groups.push(Group::default());
        }
        let place = self.random.place(acl.groups.len());
        let actions = &mut acl.groups[place].actions;
        for action in actions.iter_mut() {
            if let Action::OpPermissions(bits) = action {
                *bits |= bit;
                return;
            }
        }
        actions.truncate(MOST_ACTIONS - 1);
        actions.push(Action::OpPermissions(bit));
    }
}

#[cfg(test)]
mod tests {
    use super::*;
    use crate::encode;
    use crate::read_acl::read_acl;

    #[test]
    fn made_acls_are_well_formed() {
        let mut maker = Maker::new(1, true);
        for _ in 0..300 {
            let acl = maker.acl();
            assert_eq!(read_acl(&encode::acl(&acl)), Ok(acl));
        }
        let full = Acl {
            groups: vec![maker.full_group(0, true); MOST_GROUPS],
        };
        assert_eq!(encode::acl(&full).len(), 86_016);
        assert_eq!(read_acl(&encode::acl(&full)), Ok(full));
    }
}
