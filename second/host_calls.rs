//! Makes the calls that lend an ACL: the one in force at the host, or one for that call alone.

use crate::acl::Acl;
use crate::batch::MOST_BATCH;
use crate::call::{Bytes, Call};
use crate::encode;
use crate::generate::Generator;
use crate::make_breach::BREACHES;
use crate::make_narrowing::Narrowing;
use crate::make_request::Asking;
use crate::prepare::{form_bytes, MOST_PREPARED};
use crate::request::{EXPAND_ACL, REDUCE_ACL};

impl Generator {
    /// The ACL of a call: the host's, or one for this call alone.
    fn acl_for(&mut self, by_host: bool) -> Acl {
        if by_host {
            self.maker.km0 = self.host().km0;
            return self.host().acl.clone();
        }
        self.maker.km0 = self.maker.some_km0();
        if self.maker.random.chance(10) {
            return Acl {
                groups: vec![self.maker.rich_group(0)],
            };
        }
        self.maker.acl()
    }

    /// The same for a replacement, whose use some group should allow.
    pub fn acl_allowing(&mut self, by_host: bool, permission: u8) -> Acl {
        let mut acl = self.acl_for(by_host);
        if !by_host && self.maker.random.chance(95) {
            self.maker.allow(&mut acl, permission);
        }
        acl
    }

    pub fn request_call(&mut self, by_host: bool) -> Call {
        let acl = self.acl_for(by_host);
        let asking = self.maker.asking(&acl);
        let request = request_file(&asking);
        let mut call = Call::Request {
            km0: self.maker.km0.to_vec(),
            acl: encode::acl(&acl),
            request,
        };
        if self.maker.random.chance(17) {
            self.maker.damage_call(&mut call);
        }
        call
    }

    pub fn batch_call(&mut self, by_host: bool) -> Call {
        let acl = self.acl_for(by_host);
        let mut call = Call::Batch(self.maker.run(&acl, MOST_BATCH));
        if self.maker.random.chance(18) {
            self.maker.damage_call(&mut call);
        }
        call
    }

    pub fn prepare_call(&mut self, by_host: bool) -> Call {
        let mut call = Call::Prepare {
            acl: encode::acl(&self.acl_for(by_host)),
        };
        if self.maker.random.chance(30) {
            self.maker.damage_call(&mut call);
        }
        call
    }

    pub fn prepared_run_call(&mut self, by_host: bool) -> Call {
        let acl = self.acl_for(by_host);
        let form = self.maker.form_for(&acl);
        let mut call = Call::PreparedRun {
            form: form_bytes(&form),
            batch: self.maker.run(&acl, MOST_PREPARED),
        };
        if self.maker.random.chance(18) {
            self.maker.damage_call(&mut call);
        }
        call
    }

    pub fn narrow_call(&mut self, by_host: bool) -> Call {
        let old = self.acl_allowing(by_host, REDUCE_ACL);
        let narrowing = self.some_narrowing(old);
        self.narrow_call_of(narrowing)
    }

    pub fn narrow_call_of(&mut self, narrowing: Narrowing) -> Call {
        let Narrowing { old, new, hints } = narrowing;
        let asking = self.asking_to_replace(&old, REDUCE_ACL);
        let mut call = Call::Narrow {
            km0: self.maker.km0.to_vec(),
            acl: encode::acl(&old),
            request: request_file(&asking),
            new_acl: encode::acl(&new),
            hints: encode::hints(&hints),
        };
        if self.maker.random.chance(22) {
            self.maker.damage_call(&mut call);
        }
        call
    }

    /// Sound and gentle, sound and strong, broken in one way, empty, or nothing to do with the old
    /// ACL.
    pub fn some_narrowing(&mut self, old: Acl) -> Narrowing {
        match self.maker.random.weighted(&[40, 20, 34, 3, 3]) {
            0 => self.maker.narrowing(&old, 10),
            1 => self.maker.narrowing(&old, 50),
            2 => {
                let breach = self.maker.random.pick(&BREACHES);
                let without_hints = Narrowing {
                    new: old.clone(),
                    hints: Vec::new(),
                    old: old.clone(),
                };
                self.maker
                    .broken_narrowing(&old, breach)
                    .unwrap_or(without_hints)
            }
            3 => Narrowing {
                old,
                new: Acl::default(),
                hints: Vec::new(),
            },
            _ => {
                let other = self.maker.acl();
                let Narrowing { new, hints, .. } = self.maker.narrowing(&other, 10);
                Narrowing { old, new, hints }
            }
        }
    }

    /// A use of that permission; now and then another request, which is out of place.
    fn asking_to_replace(&mut self, acl: &Acl, permission: u8) -> Asking {
        match self.maker.random.weighted(&[95, 3, 2]) {
            0 => self.maker.asking_use(acl, permission),
            1 => self
                .maker
                .asking_use(acl, REDUCE_ACL + EXPAND_ACL - permission),
            _ => self.maker.asking(acl),
        }
    }

    pub fn expand_call(&mut self, by_host: bool) -> Call {
        let old = self.acl_allowing(by_host, EXPAND_ACL);
        let asking = self.asking_to_replace(&old, EXPAND_ACL);
        let mut new = self.maker.acl();
        for permission in [REDUCE_ACL, EXPAND_ACL] {
            if self.maker.random.chance(70) {
                self.maker.allow(&mut new, permission);
            }
        }
        let mut call = Call::Expand {
            km0: self.maker.km0.to_vec(),
            acl: encode::acl(&old),
            request: request_file(&asking),
            new_acl: encode::acl(&new),
        };
        if self.maker.random.chance(20) {
            self.maker.damage_call(&mut call);
        }
        call
    }
}

fn request_file(asking: &Asking) -> Bytes {
    encode::request(&asking.request, &asking.presented)
}
