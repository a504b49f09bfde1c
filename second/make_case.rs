//! Makes calls of the desk and of the trimming tool.

use crate::acl::Action;
use crate::call::{Bytes, Call};
use crate::desk::STEPS;
use crate::encode;
use crate::gate::NULL_MODULE_KEY;
use crate::grade::Keys;
use crate::make_desk::DeskCase;
use crate::make_fault::FIRST_STEPS;
use crate::maker::Maker;
use crate::trim::trim;

impl Maker {
    pub fn desk_call(&mut self) -> Call {
        let approach = self.random.pick_weighted(&[(82, 2), (18, 1)]);
        let mut case = self.desk_case(approach);
        self.change_suite(&mut case);
        let mut call = Call::Desk {
            bundle: encode::bundle(&case.bundle),
            acl: encode::acl(&case.acl),
        };
        if self.random.chance(18) {
            self.damage_call(&mut call);
        }
        call
    }

    pub fn trim_call(&mut self) -> Call {
        let approach = self.random.pick_weighted(&[(60, 2), (40, 1)]);
        let mut case = match self.random.weighted(&[60, 40]) {
            0 => self.trim_case(approach),
            _ => self.desk_case(approach),
        };
        self.change_suite(&mut case);
        let mut call = Call::Trim {
            bundle: encode::bundle(&case.bundle),
            acl: encode::acl(&case.acl),
            acl_buffer: Bytes::new(),
            hints_buffer: Bytes::new(),
        };
        if self.random.chance(15) {
            self.damage_call(&mut call);
        }
        self.lend_trim_buffers(&mut call);
        call
    }

    fn lend_trim_buffers(&mut self, call: &mut Call) {
        let Call::Trim {
            bundle,
            acl,
            acl_buffer,
            hints_buffer,
        } = call
        else {
            return;
        };
        let reply = trim(bundle, acl, &mut vec![0; acl.len()], &mut vec![0; 1 << 13]);
        let (acl_length, hints_length) = match reply {
            Ok(Ok(lengths)) => lengths,
            _ => (100, 64),
        };
        *acl_buffer = self.buffer_near(acl_length);
        *hints_buffer = self.buffer_near(hints_length);
        // Mostly only one of the two is short.
        if self.random.chance(60) {
            acl_buffer.resize(acl_buffer.len().max(acl_length), 0xdd);
        }
    }

    /// An unknown suite, now and then.
    fn change_suite(&mut self, case: &mut DeskCase) {
        if self.random.chance(3) {
            case.bundle.policy.suite = self.random.pick(&[0, 6, 7, 128, 255]);
        }
    }

    pub fn desk_case(&mut self, approach: u8) -> DeskCase {
        match self.random.weighted(&[26, 40, 14, 6, 10, 4]) {
            0 => self.passing_case(approach),
            1 => {
                let step = self.random.pick(&STEPS);
                self.failing_case(approach, step)
            }
            2 => self.case_with_two_faults(approach),
            3 => self.case_with_losses(approach),
            4 => {
                let mut case = self.passing_case(approach);
                self.add_any_action(&mut case);
                case
            }
            _ => DeskCase {
                acl: self.acl(),
                ..self.passing_case(approach)
            },
        }
    }

    /// A case that passes up to the ACL, in which many actions may fail.
    pub fn trim_case(&mut self, approach: u8) -> DeskCase {
        let mut case = self.passing_case(approach);
        for _ in 0..self.random.below(7) {
            match self.random.below(3) {
                0 => self.add_any_action(&mut case),
                1 => {
                    let step = self
                        .random
                        .pick(&["ACLV3", "WB1", "WB3", "WB6", "RB2", "RB3"]);
                    self.add_fault(&mut case, step);
                }
                _ => {
                    let mut action = self.action();
                    if let Action::MakeArchiveBlob(blob) = &mut action {
                        blob.kahash = Some(self.recovery_key());
                    }
                    self.add_action(&mut case, action);
                }
            }
        }
        case
    }

    /// A case that passes, without limits and blob files, mostly within request n's premise, and
    /// the module keys of its world.
    pub fn graded_case(&mut self) -> (DeskCase, Keys) {
        let mut case = self.passing_case(2);
        let hkm = case.hkm().unwrap_or(NULL_MODULE_KEY);
        let other = self.some_km0();
        let km0 = self.random.pick(&[hkm, other]);
        for group in &mut case.acl.groups {
            group.limits.clear();
            for action in &mut group.actions {
                if let Some(blobfile) = action.blobfile_mut() {
                    *blobfile = None;
                }
                if let Action::MakeBlob(blob) = action {
                    blob.allow_non_km0 |= km0 != hkm;
                    if blob.allow_km_only {
                        (blob.kthash, blob.ktparams) = (None, None);
                    }
                }
            }
        }
        (case, Keys { hkm, km0 })
    }

    /// Two steps fail, often one right after the other, to see which is answered.
    fn case_with_two_faults(&mut self, approach: u8) -> DeskCase {
        let steps: &[&str] = if approach == 1 { &FIRST_STEPS } else { &STEPS };
        let first = self.random.place(steps.len() - 1);
        let any = self.random.place(steps.len());
        let second = self.random.pick(&[first + 1, any]);
        let mut case = self.failing_case(approach, steps[second]);
        self.add_fault(&mut case, steps[first]);
        case
    }

    /// A passing case from which facts and signatures have been lost here and there.
    fn case_with_losses(&mut self, approach: u8) -> DeskCase {
        let mut case = self.passing_case(approach);
        for fact in &mut case.bundle.facts {
            if self.random.chance(7) {
                *fact = None;
            }
        }
        for signature in &mut case.bundle.signatures {
            if self.random.chance(7) {
                *signature = signature.and(self.random.pick(&[None, Some(false)]));
            }
        }
        case
    }
}
