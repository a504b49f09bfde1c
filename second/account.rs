//! Request m, "narrowing never buys uses": the account beside the gate, and the search for groups of
//! the first ACL to which the permitted requests can be put down.

use std::collections::HashSet;

use crate::acl::Acl;
use crate::certify::is_certified;
use crate::gate::{admits, is_unspent};
use crate::ledger::Ledger;
use crate::record::Hash;
use crate::request::{Presented, Request};

/// What has happened since the load, as far as the account is concerned.
#[derive(Clone, Debug)]
pub enum Event {
    /// A permitted request; a permitted narrowing is one.
    Permit {
        km0: Hash,
        request: Request,
        presented: Presented,
    },
    Clear {
        counter: u64,
    },
    Load {
        time: u64,
    },
}

/// From a load on: the first ACL, the readings just after the load, and what came then.
#[derive(Clone, Debug)]
pub struct History {
    pub first: Acl,
    pub readings: Ledger,
    pub events: Vec<Event>,
}

impl History {
    /// "Each permitted request can be put down to a group of the first ACL that admits it, is
    /// certified by what was presented, and is unspent under an account that starts from the
    /// readings at that load, obeys the same clears and reloads, and counts only those attributed
    /// permits."
    pub fn can_be_put_down(&self) -> bool {
        let mut search = Search {
            history: self,
            tried: HashSet::new(),
        };
        search.goes_on(0, self.readings.clone())
    }
}

/// Tries every group for every permit, and no account twice at one place.
struct Search<'a> {
    history: &'a History,
    tried: HashSet<(usize, Ledger)>,
}

impl Search<'_> {
    /// Whether everything from that place on can be put down under that account.
    fn goes_on(&mut self, place: usize, account: Ledger) -> bool {
        let Some(event) = self.history.events.get(place) else {
            return true;
        };
        if !self.tried.insert((place, account.clone())) {
            return false;
        }
        match event {
            Event::Clear { counter } => match account.cleared(*counter) {
                Ok(cleared) => self.goes_on(place + 1, cleared),
                Err(_) => self.goes_on(place + 1, account),
            },
            Event::Load { time } => self.goes_on(place + 1, account.loaded(*time)),
            Event::Permit { request, .. } => {
                let groups = self.groups_for(event, &account);
                groups.into_iter().any(|group| {
                    let charged = &self.history.first.groups[group];
                    self.goes_on(place + 1, account.charged(charged, group, request.time))
                })
            }
        }
    }

    /// The groups of the first ACL that grant that permit under the account.
    fn groups_for(&self, event: &Event, account: &Ledger) -> Vec<usize> {
        let Event::Permit {
            km0,
            request,
            presented,
        } = event
        else {
            return Vec::new();
        };
        let grants = |place: &usize| {
            let group = &self.history.first.groups[*place];
            admits(group, km0, request)
                && is_certified(group, &request.asked, presented)
                && is_unspent(group, *place, account, request.time)
        };
        (0..self.history.first.groups.len())
            .filter(grants)
            .collect()
    }
}

#[cfg(test)]
mod tests {
    use super::*;
    use crate::acl::{Action, Group, Limit, Sort};
    use crate::request::Asked;

    fn sign(time: u64) -> Event {
        Event::Permit {
            km0: [0; 20],
            request: Request {
                asked: Asked::Use(4),
                time,
                blobfile: None,
            },
            presented: Presented::default(),
        }
    }

    fn group(bits: u16, limits: &[(Sort, u32)]) -> Group {
        let limit = |(sort, maximum): &(Sort, u32)| Limit {
            sort: *sort,
            maximum: *maximum,
        };
        Group {
            limits: limits.iter().map(limit).collect(),
            actions: vec![Action::OpPermissions(bits)],
            ..Group::default()
        }
    }

    fn can_be(groups: &[Group], events: &[Event]) -> bool {
        History {
            first: Acl {
                groups: groups.to_vec(),
            },
            readings: Ledger::fresh(),
            events: events.to_vec(),
        }
        .can_be_put_down()
    }

    #[test]
    fn a_use_too_many_cannot_be_put_down() {
        let groups = [
            group(16, &[(Sort::UsesPerLoad, 1)]),
            group(16, &[(Sort::Counter(3), 2)]),
        ];
        let four = [sign(0), sign(0), sign(0), sign(0)];
        assert!(can_be(&groups, &four[1..]));
        assert!(!can_be(&groups, &four));
        let clear = Event::Clear { counter: 3 };
        let load = Event::Load { time: 0 };
        assert!(can_be(
            &groups,
            &[&four[..3], &[clear], &four[..2]].concat()
        ));
        assert!(can_be(&groups, &[&four[..3], &[load], &four[..1]].concat()));
        assert!(!can_be(&groups[..1], &[sign(0), sign(1)]));
        assert!(!can_be(&[group(32, &[])], &[sign(0)]));
    }

    #[test]
    fn different_permits_may_go_to_different_groups() {
        // The first Sign fits both groups, the later one only the first.
        let groups = [
            group(16, &[(Sort::UsesPerLoad, 1)]),
            group(16, &[(Sort::SecondsSinceLoad, 5)]),
        ];
        assert!(can_be(&groups, &[sign(0), sign(9)]));
        assert!(!can_be(&groups, &[sign(0), sign(9), sign(9)]));
    }
}
