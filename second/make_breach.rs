//! Breaks sound narrowings in exactly one way.

use crate::acl::{Acl, Sort, MOST_ACTIONS, MOST_GROUPS};
use crate::make_narrowing::Narrowing;
use crate::make_wider::kind;
use crate::maker::Maker;
use crate::replace::{Hint, MOST_HINTS};

/// The ways in which hints fail to show a narrowing.
#[derive(Clone, Copy, Debug, PartialEq)]
pub enum Breach {
    SourcesEqual,
    SourcesFalling,
    HintTooFew,
    HintTooMany,
    SourceNamesNothing,
    ActionNamesNothing,
    UnusedByteNotZero,
    CertifierDropped,
    CertifierChanged,
    MechanismDropped,
    MechanismChanged,
    LimitDropped,
    MaximumLarger,
    SortChanged,
    CounterChanged,
    BitAdded,
    KmOnlyAdded,
    NonKm0Added,
    NullKmTokenAdded,
    KmhashDropped,
    KmhashChanged,
    KthashDropped,
    KthashChanged,
    KtparamsDropped,
    TokenFlagAdded,
    NeededSmaller,
    TotalLarger,
    TimeLimitLarger,
    TimeLimitDropped,
    KahashDropped,
    KahashChanged,
    OtherKind,
    OtherKindHinted,
    ArchiveMechanismChanged,
    BlobfileAdded,
    BlobfileDropped,
    DeviceAdded,
    MaskDropped,
    TemplateDropped,
    TemplateChanged,
}

/// The breaches of hints come first.
pub const HINT_BREACHES: usize = 7;
pub const BREACHES: [Breach; 40] = [
    Breach::SourcesEqual,
    Breach::SourcesFalling,
    Breach::HintTooFew,
    Breach::HintTooMany,
    Breach::SourceNamesNothing,
    Breach::ActionNamesNothing,
    Breach::UnusedByteNotZero,
    Breach::CertifierDropped,
    Breach::CertifierChanged,
    Breach::MechanismDropped,
    Breach::MechanismChanged,
    Breach::LimitDropped,
    Breach::MaximumLarger,
    Breach::SortChanged,
    Breach::CounterChanged,
    Breach::BitAdded,
    Breach::KmOnlyAdded,
    Breach::NonKm0Added,
    Breach::NullKmTokenAdded,
    Breach::KmhashDropped,
    Breach::KmhashChanged,
    Breach::KthashDropped,
    Breach::KthashChanged,
    Breach::KtparamsDropped,
    Breach::TokenFlagAdded,
    Breach::NeededSmaller,
    Breach::TotalLarger,
    Breach::TimeLimitLarger,
    Breach::TimeLimitDropped,
    Breach::KahashDropped,
    Breach::KahashChanged,
    Breach::OtherKind,
    Breach::OtherKindHinted,
    Breach::ArchiveMechanismChanged,
    Breach::BlobfileAdded,
    Breach::BlobfileDropped,
    Breach::DeviceAdded,
    Breach::MaskDropped,
    Breach::TemplateDropped,
    Breach::TemplateChanged,
];

impl Maker {
    /// A narrowing with exactly that breach. Where the old ACL gives no room for it, another old
    /// ACL is made.
    pub fn broken_narrowing(&mut self, old: &Acl, breach: Breach) -> Option<Narrowing> {
        let mut narrowing = self.narrowing(old, 15);
        for _ in 0..40 {
            if self.breaks(&mut narrowing, breach) {
                return Some(narrowing);
            }
            let number = self.random.between(2, 3) as usize;
            let mut rich = Acl {
                groups: (0..number).map(|place| self.rich_group(place)).collect(),
            };
            self.allow(&mut rich, crate::request::REDUCE_ACL);
            narrowing = self.narrowing(&rich, 15);
        }
        None
    }

    /// Breaks a sound narrowing; false, and nothing changed, where it gives no room for that
    /// breach.
    pub fn breaks(&mut self, narrowing: &mut Narrowing, breach: Breach) -> bool {
        match breach {
            Breach::SourcesEqual
            | Breach::SourcesFalling
            | Breach::HintTooFew
            | Breach::HintTooMany
            | Breach::SourceNamesNothing => self.breaks_sources(narrowing, breach),
            Breach::ActionNamesNothing | Breach::UnusedByteNotZero => {
                self.breaks_action_bytes(narrowing, breach)
            }
            Breach::CertifierDropped
            | Breach::CertifierChanged
            | Breach::MechanismDropped
            | Breach::MechanismChanged => self.breaks_certification(narrowing, breach),
            Breach::LimitDropped
            | Breach::MaximumLarger
            | Breach::SortChanged
            | Breach::CounterChanged => self.breaks_limits(narrowing, breach),
            _ => self.breaks_actions(narrowing, breach),
        }
    }

    fn breaks_sources(&mut self, narrowing: &mut Narrowing, breach: Breach) -> bool {
        let Narrowing { old, new, hints } = narrowing;
        let number = new.groups.len();
        match breach {
            Breach::SourcesEqual if (1..MOST_GROUPS).contains(&number) => {
                let place = self.random.place(number);
                new.groups.insert(place, new.groups[place].clone());
                hints.insert(place, hints[place]);
            }
            Breach::SourcesFalling if number >= 2 => {
                let place = self.random.place(number - 1);
                new.groups.swap(place, place + 1);
                hints.swap(place, place + 1);
            }
            Breach::HintTooFew if number >= 1 => {
                hints.pop();
            }
            Breach::HintTooMany if number < MOST_HINTS => {
                let next = hints.last().map_or(0, |hint| hint.source + 1);
                hints.push(Hint {
                    source: next,
                    actions: [0; MOST_ACTIONS],
                });
            }
            Breach::SourceNamesNothing if number >= 1 => {
                let past = old.groups.len() as u8;
                hints[number - 1].source = self.random.pick(&[past, past, 64, 255]).max(past);
            }
            _ => return false,
        }
        true
    }

    fn breaks_action_bytes(&mut self, narrowing: &mut Narrowing, breach: Breach) -> bool {
        let Narrowing { old, new, hints } = narrowing;
        if new.groups.is_empty() {
            return false;
        }
        let place = self.random.place(new.groups.len());
        let used = new.groups[place].actions.len();
        let source = &old.groups[usize::from(hints[place].source)];
        if breach == Breach::ActionNamesNothing {
            if used == 0 {
                return false;
            }
            let past = source.actions.len() as u8;
            hints[place].actions[self.random.place(used)] =
                self.random.pick(&[past, past, 8, 255]).max(past);
        } else {
            if used == MOST_ACTIONS {
                return false;
            }
            let unused = used + self.random.place(MOST_ACTIONS - used);
            hints[place].actions[unused] = self.random.pick(&[1, 1, 2, 255]);
        }
        true
    }

    fn breaks_certification(&mut self, narrowing: &mut Narrowing, breach: Breach) -> bool {
        let Narrowing { old, new, hints } = narrowing;
        let about_mechanism = matches!(breach, Breach::MechanismDropped | Breach::MechanismChanged);
        let fits = |place: &usize| {
            let source = &old.groups[usize::from(hints[*place].source)];
            if about_mechanism {
                source.mechanism.is_some()
            } else {
                source.certifier.is_some()
            }
        };
        let places: Vec<usize> = (0..new.groups.len()).filter(fits).collect();
        if places.is_empty() {
            return false;
        }
        let group = &mut new.groups[self.random.pick(&places)];
        match breach {
            Breach::CertifierDropped => {
                group.certifier = None;
                group.mechanism = None;
                self.name_keys(group);
            }
            Breach::CertifierChanged => {
                group.certifier = group.certifier.map(|hash| self.near(hash))
            }
            Breach::MechanismDropped => group.mechanism = None,
            _ => {
                group.mechanism = group
                    .mechanism
                    .map(|mechanism| self.other_mechanism(mechanism))
            }
        }
        true
    }

    fn breaks_limits(&mut self, narrowing: &mut Narrowing, breach: Breach) -> bool {
        let Narrowing { old, new, hints } = narrowing;
        let mut choices = Vec::new();
        for (place, hint) in hints.iter().enumerate() {
            for limit in &old.groups[usize::from(hint.source)].limits {
                choices.push((place, *limit));
            }
        }
        if choices.is_empty() {
            return false;
        }
        let (place, old_limit) = self.random.pick(&choices);
        let limits = &mut new.groups[place].limits;
        let Some(answering) = limits.iter().position(|limit| limit.sort == old_limit.sort) else {
            return false;
        };
        let sorts: Vec<Sort> = limits.iter().map(|limit| limit.sort).collect();
        let changed = match (breach, old_limit.sort) {
            (Breach::LimitDropped, _) => {
                limits.remove(answering);
                return true;
            }
            (Breach::MaximumLarger, _) if old_limit.maximum < u32::MAX => {
                let more = old_limit.maximum + 1;
                limits[answering].maximum = self.random.pick(&[more, more, u32::MAX]);
                return true;
            }
            (Breach::SortChanged, sort) => match sort {
                Sort::UsesPerLoad => self
                    .random
                    .pick(&[Sort::SecondsSinceLoad, Sort::Counter(0)]),
                Sort::SecondsSinceLoad => self.random.pick(&[Sort::UsesPerLoad, Sort::Counter(0)]),
                Sort::Counter(_) => self
                    .random
                    .pick(&[Sort::UsesPerLoad, Sort::SecondsSinceLoad]),
            },
            (Breach::CounterChanged, Sort::Counter(counter)) => {
                let next = counter.wrapping_add(1);
                Sort::Counter(self.random.pick(&[next, counter ^ 1, counter ^ 0x80]))
            }
            _ => return false,
        };
        if sorts.contains(&changed) {
            return false;
        }
        limits[answering].sort = changed;
        true
    }

    fn breaks_actions(&mut self, narrowing: &mut Narrowing, breach: Breach) -> bool {
        let Narrowing { old, new, hints } = narrowing;
        let mut choices = Vec::new();
        for (group, hint) in hints.iter().enumerate() {
            for place in 0..new.groups[group].actions.len() {
                choices.push((
                    group,
                    place,
                    usize::from(hint.source),
                    usize::from(hint.actions[place]),
                ));
            }
        }
        self.random.shuffle(&mut choices);
        for (group, place, source_group, source_place) in choices {
            let source = &old.groups[source_group].actions[source_place];
            let open = new.groups[group].is_open();
            let action = &mut new.groups[group].actions[place];
            if breach == Breach::OtherKindHinted {
                let kinds = &old.groups[source_group].actions;
                let other = kinds.iter().position(|other| kind(other) != kind(source));
                if let Some(other) = other {
                    hints[group].actions[place] = other as u8;
                    return true;
                }
            } else if let Some(wider) = self.widened(action, source, breach) {
                // In an open group a lost key would be a matter of 12.
                if !(open && wider.lacks_kahash()) {
                    *action = wider;
                    return true;
                }
            }
        }
        false
    }
}

#[cfg(test)]
mod tests {
    use super::*;
    use crate::encode;
    use crate::read_acl::read_acl;
    use crate::replace::is_narrowing;

    #[test]
    fn every_breach_is_found_and_stays_well_formed() {
        let mut maker = Maker::new(4, true);
        for breach in BREACHES {
            for _ in 0..40 {
                let old = maker.acl();
                let broken = maker
                    .broken_narrowing(&old, breach)
                    .unwrap_or_else(|| panic!("{breach:?}"));
                assert!(
                    !is_narrowing(&broken.old, &broken.new, &broken.hints),
                    "{breach:?} {broken:?}"
                );
                assert_eq!(
                    read_acl(&encode::acl(&broken.new)),
                    Ok(broken.new),
                    "{breach:?}"
                );
            }
        }
    }
}
