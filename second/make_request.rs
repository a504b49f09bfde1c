//! Makes requests aimed at an action of an ACL: matching it, or off by exactly one thing.

use crate::acl::{Acl, Action, Group, MakeBlob, Sort, TokenParameters};
use crate::gate::NULL_MODULE_KEY;
use crate::ledger::Ledger;
use crate::make_acl::allows;
use crate::maker::Maker;
use crate::record::Hash;
use crate::request::{Asked, Presented, Request, Token};

/// A request with what is presented beside it.
pub struct Asking {
    pub request: Request,
    pub presented: Presented,
}

/// A time from which on the rest of a script should load again before it goes on.
pub const FAR_TIME: u64 = 1 << 62;
pub const LONG_AFTER_LOAD: u64 = 1 << 31;

impl Maker {
    /// A request for some action of the ACL; now and then for anything at all.
    pub fn asking(&mut self, acl: &Acl) -> Asking {
        let with_actions: Vec<&Group> = acl
            .groups
            .iter()
            .filter(|group| !group.actions.is_empty())
            .collect();
        if with_actions.is_empty() || self.random.chance(4) {
            let presented = self.presented_to_nobody();
            return Asking {
                request: Request {
                    asked: self.anything(),
                    time: self.time(acl),
                    blobfile: None,
                },
                presented,
            };
        }
        let group = self.random.pick(&with_actions);
        let action = self.random.pick(&group.actions);
        let asked = self.aimed_at(&action);
        let presented = self.presented_for(group, &asked);
        let blobfile = match asked {
            Asked::Use(_) => None,
            _ => self.asked_blobfile(action.blobfile()),
        };
        Asking {
            request: Request {
                asked,
                time: self.time(acl),
                blobfile,
            },
            presented,
        }
    }

    /// A use of that one permission, aimed at a group that allows it if there is one.
    pub fn asking_use(&mut self, acl: &Acl, permission: u8) -> Asking {
        let allowing: Vec<&Group> = acl
            .groups
            .iter()
            .filter(|group| allows(group, permission))
            .collect();
        let asked = Asked::Use(permission);
        let presented = if allowing.is_empty() {
            self.presented_to_nobody()
        } else {
            let group = self.random.pick(&allowing);
            self.presented_for(group, &asked)
        };
        Asking {
            request: Request {
                asked,
                time: self.time(acl),
                blobfile: None,
            },
            presented,
        }
    }

    pub fn anything(&mut self) -> Asked {
        match self.random.below(3) {
            0 => Asked::Use(self.random.below(16) as u8),
            1 => {
                let token = self.random.chance(60).then(|| self.token());
                Asked::Blob {
                    module_key: self.module_key(),
                    token,
                }
            }
            _ => Asked::Recovery {
                key: self.recovery_key(),
                mechanism: self.mechanism(),
            },
        }
    }

    fn token(&mut self) -> Token {
        Token {
            hash: self.token_hash(),
            parameters: self.token_parameters(),
        }
    }

    fn aimed_at(&mut self, action: &Action) -> Asked {
        match action {
            Action::OpPermissions(bits) => Asked::Use(self.permission_of(*bits)),
            Action::MakeBlob(blob) => self.aimed_at_blob(blob),
            Action::MakeArchiveBlob(blob) => self.aimed_at_archive(blob.kahash, blob.mechanism),
        }
    }

    /// Mostly a set bit, else any.
    fn permission_of(&mut self, bits: u16) -> u8 {
        let set: Vec<u8> = (0..16).filter(|bit| bits >> bit & 1 == 1).collect();
        if set.is_empty() || self.random.chance(10) {
            return self.random.below(16) as u8;
        }
        self.random.pick(&set)
    }

    fn aimed_at_archive(&mut self, kahash: Option<Hash>, mechanism: u16) -> Asked {
        let mut key = kahash.unwrap_or_else(|| self.recovery_key());
        let mut asked_mechanism = mechanism;
        match self.random.weighted(&[75, 10, 8, 7]) {
            0 => {}
            1 => key = self.near(key),
            2 => asked_mechanism = self.mechanism(),
            _ => asked_mechanism = self.other_mechanism(mechanism),
        }
        Asked::Recovery {
            key,
            mechanism: asked_mechanism,
        }
    }

    /// One bit off, and never zero.
    pub fn other_mechanism(&mut self, mechanism: u16) -> u16 {
        let other = mechanism ^ 1 << self.random.below(16);
        if other == 0 {
            3
        } else {
            other
        }
    }

    /// A blob request that the action admits where it can, then mostly left so, else changed in one
    /// thing.
    fn aimed_at_blob(&mut self, blob: &MakeBlob) -> Asked {
        let mut module_key = blob.kmhash.unwrap_or(self.km0);
        if blob.kmhash.is_none() && blob.allow_non_km0 && self.random.chance(60) {
            module_key = self.module_key();
        }
        let direct_possible =
            blob.allow_km_only && blob.kthash.is_none() && blob.ktparams.is_none();
        let direct = direct_possible && module_key != NULL_MODULE_KEY && self.random.chance(75);
        let mut token = if direct {
            None
        } else {
            Some(self.matching_token(blob))
        };
        if self.random.chance(35) {
            self.change_one_thing(&mut module_key, &mut token);
        }
        Asked::Blob { module_key, token }
    }

    fn matching_token(&mut self, blob: &MakeBlob) -> Token {
        let hash = blob.kthash.unwrap_or_else(|| self.token_hash());
        let parameters = match blob.ktparams {
            None => self.token_parameters(),
            Some(named) if self.random.chance(50) => named,
            Some(named) => self.tightened(named),
        };
        Token { hash, parameters }
    }

    fn change_one_thing(&mut self, module_key: &mut Hash, token: &mut Option<Token>) {
        match self.random.below(8) {
            0 => *module_key = self.near(*module_key),
            1 => *module_key = self.module_key(),
            2 => *module_key = NULL_MODULE_KEY,
            3 => self.km0 = self.near(self.km0),
            4 => {
                let added = self.token();
                *token = if token.is_some() { None } else { Some(added) };
            }
            5 => {
                if let Some(token) = token {
                    token.hash = self.near(token.hash);
                }
            }
            _ => {
                if let Some(token) = token {
                    self.change_parameters(&mut token.parameters);
                }
            }
        }
    }

    /// One part of the parameters off by one; most changes keep them well formed.
    fn change_parameters(&mut self, parameters: &mut TokenParameters) {
        match self.random.below(7) {
            0 => parameters.flags ^= 1,
            1 => parameters.needed = parameters.needed.saturating_sub(1).max(1),
            2 => parameters.needed = (parameters.needed + 1).min(parameters.total),
            3 => parameters.total += 1,
            4 => parameters.time_limit = 0,
            5 => parameters.time_limit = parameters.time_limit.saturating_add(1),
            _ => parameters.time_limit = parameters.time_limit.saturating_sub(1),
        }
    }

    /// Parameters equal to or tighter than those.
    pub fn tightened(&mut self, named: TokenParameters) -> TokenParameters {
        let total = self
            .random
            .between(u64::from(named.needed), u64::from(named.total)) as u8;
        let needed = self
            .random
            .between(u64::from(named.needed), u64::from(total)) as u8;
        let time_limit = match (named.time_limit, self.random.below(4)) {
            (0, _) => self.time_limit(),
            (limit, 0) => limit,
            (_, 1) => 1,
            (limit, _) => self.random.between(1, u64::from(limit)) as u32,
        };
        TokenParameters {
            flags: named.flags & self.random.below(2) as u16,
            needed,
            total,
            time_limit,
        }
    }

    /// A time for a request: mostly a little after the last one, else at an edge.
    pub fn time(&mut self, acl: &Acl) -> u64 {
        let (load, last) = (self.ledger.load_time, self.ledger.last_time);
        let soon = last.saturating_add(self.random.below(3));
        match self
            .random
            .weighted(&[660, 80, 70, 30, 25, 25, 20, 80, 5, 5])
        {
            0 => soon,
            1 => last,
            2 => last.saturating_add(1),
            3 => last.saturating_sub(1),
            4 => load.saturating_sub(1),
            5 => load,
            6 => load.saturating_add(1),
            7 => self.time_near_a_maximum(acl).unwrap_or(soon),
            8 if self.may_load => load
                .saturating_add(1 << 32)
                .saturating_add(self.random.below(12)),
            9 if self.may_load => u64::MAX - self.random.below(3),
            _ => soon,
        }
    }

    /// At, one before or one after the end of some limit of seconds since load.
    fn time_near_a_maximum(&mut self, acl: &Acl) -> Option<u64> {
        let limits = acl.groups.iter().flat_map(|group| &group.limits);
        let near = |maximum: u32| self.may_load || u64::from(maximum) < 1_000_000;
        let maxima: Vec<u32> = limits
            .filter(|limit| limit.sort == Sort::SecondsSinceLoad && near(limit.maximum))
            .map(|limit| limit.maximum)
            .collect();
        if maxima.is_empty() {
            return None;
        }
        let end = self
            .ledger
            .load_time
            .saturating_add(u64::from(self.random.pick(&maxima)));
        Some(match self.random.below(3) {
            0 => end.saturating_sub(1),
            1 => end,
            _ => end.saturating_add(1),
        })
    }
}

/// Whether the clock has run so far ahead that a load is due.
pub fn load_is_due(ledger: &Ledger) -> bool {
    let (load, last) = (ledger.load_time, ledger.last_time);
    last >= FAR_TIME || last - load >= LONG_AFTER_LOAD
}

#[cfg(test)]
mod tests {
    use super::*;

    #[test]
    fn tightened_parameters_are_no_looser() {
        let mut maker = Maker::new(2, true);
        for _ in 0..2000 {
            let named = maker.token_parameters();
            let tighter = maker.tightened(named);
            assert!(tighter.no_looser_than(named), "{named:?} {tighter:?}");
            assert!(1 <= tighter.needed && tighter.needed <= tighter.total);
        }
    }
}
