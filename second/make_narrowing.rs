//! Makes narrowings that the hints show to be sound.

use crate::acl::{Acl, Action, Group, MakeArchiveBlob, MakeBlob, MOST_ACTIONS};
use crate::maker::Maker;
use crate::replace::Hint;

/// A new ACL with its hints, beside the old one.
#[derive(Clone, Debug)]
pub struct Narrowing {
    pub old: Acl,
    pub new: Acl,
    pub hints: Vec<Hint>,
}

impl Maker {
    /// A sound narrowing of an ACL; each thing that may be narrowed is with that chance.
    pub fn narrowing(&mut self, old: &Acl, percent: u64) -> Narrowing {
        let mut new = Acl::default();
        let mut hints = Vec::new();
        for (place, source) in old.groups.iter().enumerate() {
            if !self.random.chance(percent / 2) {
                let (group, actions) = self.narrowed_group(source, new.groups.len(), percent);
                new.groups.push(group);
                hints.push(Hint {
                    source: place as u8,
                    actions,
                });
            }
        }
        Narrowing {
            old: old.clone(),
            new,
            hints,
        }
    }

    fn narrowed_group(
        &mut self,
        source: &Group,
        place: usize,
        percent: u64,
    ) -> (Group, [u8; MOST_ACTIONS]) {
        let mut group = source.clone();
        if group.certifier.is_none() && self.random.chance(percent / 4) {
            group.certifier = Some(self.certifier());
        }
        if group.certifier.is_some() && group.mechanism.is_none() && self.random.chance(percent / 2)
        {
            group.mechanism = Some(self.mechanism());
        }
        for limit in &mut group.limits {
            if self.random.chance(percent) {
                limit.maximum = self.lowered(limit.maximum);
            }
        }
        if self.random.chance(percent) {
            self.add_limit(&mut group, place);
        }
        if self.random.chance(percent) {
            self.random.shuffle(&mut group.limits);
        }
        let places = self.kept_actions(source.actions.len(), percent);
        let mut named = [0; MOST_ACTIONS];
        group.actions.clear();
        for (byte, place) in named.iter_mut().zip(places) {
            *byte = place as u8;
            group
                .actions
                .push(self.narrowed_action(&source.actions[place], percent));
        }
        (group, named)
    }

    /// Source actions for a new group: mostly all in order, else some dropped, repeated or in
    /// another order.
    fn kept_actions(&mut self, number: usize, percent: u64) -> Vec<usize> {
        let mut places: Vec<usize> = (0..number).collect();
        if self.random.chance(percent) {
            self.random.shuffle(&mut places);
        }
        if self.random.chance(percent) {
            let kept = self.random.place(number + 1);
            places.truncate(kept);
        }
        while !places.is_empty() && places.len() < MOST_ACTIONS && self.random.chance(percent / 2) {
            let again = self.random.pick(&places);
            let place = self.random.place(places.len() + 1);
            places.insert(place, again);
        }
        places
    }

    fn lowered(&mut self, maximum: u32) -> u32 {
        match self.random.below(4) {
            0 => maximum.saturating_sub(1),
            1 => maximum.saturating_sub(2),
            2 => self
                .random
                .between(u64::from(maximum / 2), u64::from(maximum)) as u32,
            _ => maximum.min(1_000),
        }
    }

    fn narrowed_action(&mut self, source: &Action, percent: u64) -> Action {
        if !self.random.chance(percent) {
            return source.clone();
        }
        let mut action = source.clone();
        if let Some(Some(file)) = action.blobfile_mut() {
            if self.random.chance(50) {
                *file = self.narrowed_blobfile(*file);
                return action;
            }
        }
        match source {
            Action::OpPermissions(bits) => Action::OpPermissions(bits & self.mask()),
            Action::MakeBlob(blob) => Action::MakeBlob(self.narrowed_blob(blob)),
            Action::MakeArchiveBlob(blob) => Action::MakeArchiveBlob(MakeArchiveBlob {
                kahash: Some(blob.kahash.unwrap_or_else(|| self.recovery_key())),
                ..blob.clone()
            }),
        }
    }

    /// Bits to keep: all but one, or half of them.
    pub fn mask(&mut self) -> u16 {
        if self.random.chance(70) {
            !(1 << self.random.below(16))
        } else {
            self.random.next() as u16
        }
    }

    fn narrowed_blob(&mut self, source: &MakeBlob) -> MakeBlob {
        let mut blob = source.clone();
        match self.random.below(7) {
            0 => blob.allow_km_only = false,
            1 => blob.allow_non_km0 = false,
            2 => blob.allow_null_km_token = false,
            3 => blob.kmhash = Some(source.kmhash.unwrap_or_else(|| self.module_key())),
            4 => blob.kthash = Some(source.kthash.unwrap_or_else(|| self.token_hash())),
            _ => {
                blob.ktparams = Some(match source.ktparams {
                    Some(named) => self.tightened(named),
                    None => self.token_parameters(),
                });
            }
        }
        blob
    }
}

#[cfg(test)]
mod tests {
    use super::*;
    use crate::encode;
    use crate::read_acl::read_acl;
    use crate::replace::is_narrowing;

    #[test]
    fn sound_narrowings_are_narrowings() {
        let mut maker = Maker::new(3, true);
        for round in 0..1000 {
            let old = maker.acl();
            let narrowing = maker.narrowing(&old, [5, 30, 80][round % 3]);
            assert!(
                is_narrowing(&old, &narrowing.new, &narrowing.hints),
                "{narrowing:?}"
            );
            assert_eq!(read_acl(&encode::acl(&narrowing.new)), Ok(narrowing.new));
        }
    }
}
