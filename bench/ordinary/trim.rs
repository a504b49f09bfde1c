//! The trimming tool: an ACL without what fails the desk's steps, and the hints that show it to be a narrowing.

use super::acl::{self, Taker};
use super::desk::{self, Rules};
use super::record::*;
use super::{NotTrimmed, Refusal, STEPS};

// What is kept of a group: all of it if it is the officer's, else the actions whose bits are set, the first one lowest.
#[derive(Clone, Copy)]
struct Kept {
    officers: bool,
    actions: u8,
}

// Takes from an ACL what is kept of each group, and how many records the new ACL has.
struct Keeping<'a> {
    rules: Rules<'a>,
    groups: usize,
    kept: [Kept; GROUPS],
    // The actions of the group that is read.
    actions: u32,
    records: usize,
}

impl Keeping<'_> {
    fn action(&mut self, passes: bool, blobfile: Option<&Record>) {
        let kept = &mut self.kept[self.groups - 1];
        if kept.officers || passes {
            kept.actions |= 1 << self.actions;
            self.records += 1 + usize::from(blobfile.is_some());
        }
        self.actions += 1;
    }
}

impl Taker for Keeping<'_> {
    fn group(&mut self, g: usize, _: usize, rec: &Record) {
        self.kept[g] = Kept { officers: self.rules.is_officers(rec), actions: 0 };
        self.groups = g + 1;
        self.actions = 0;
        self.records += 1;
    }

    fn limit(&mut self, _: &Record) {
        self.records += 1;
    }

    fn permissions(&mut self, _: &Record) {
        self.action(true, None);
    }

    fn make_blob(&mut self, rec: &Record, blobfile: Option<&Record>) {
        self.action(self.rules.blob_steps(rec).is_ok(), blobfile);
    }

    fn make_archive_blob(&mut self, rec: &Record, blobfile: Option<&Record>) {
        self.action(self.rules.archive_steps(rec).is_ok(), blobfile);
    }
}

// Writes the records of an ACL that are kept, and a hint for each group.
fn write(acl: &[Record], keeping: &Keeping, new: &mut [Record], hints: &mut [Record]) {
    let mut places = new.iter_mut();
    // Groups begun; of the last one its actions, those kept, and whether the last action is.
    let (mut groups, mut actions, mut kept_actions, mut is_kept) = (0, 0, 0, true);
    for rec in acl {
        if rec[0] == 1 {
            hints[groups] = [0; 64];
            (hints[groups][0], hints[groups][4]) = (13, groups as u8);
            (groups, actions, kept_actions, is_kept) = (groups + 1, 0, 0, true);
        } else if (3..=5).contains(&rec[0]) {
            is_kept = keeping.kept[groups - 1].actions >> actions & 1 == 1;
            if is_kept {
                hints[groups - 1][8 + kept_actions] = actions as u8;
                kept_actions += 1;
            }
            actions += 1;
        }
        if !is_kept {
            continue;
        }
        let place = places.next().expect("a place for each kept record");
        *place = *rec;
        if rec[0] == 3 && !keeping.kept[groups - 1].officers {
            let bits = be16(rec, 4) & keeping.rules.admitted;
            place[4..6].copy_from_slice(&bits.to_be_bytes());
        }
    }
}

/// Trims an ACL; the lengths of the new ACL and of its hints.
pub fn trim(bundle: &[u8], acl: &[u8], new: &mut [u8], hints: &mut [u8]) -> Result<(u64, u64), NotTrimmed> {
    let refused = |why: Refusal| NotTrimmed::Refused(why.into());
    let (bundle, acl) = desk::open(bundle, acl).map_err(refused)?;
    let rules = Rules::of(&bundle);
    if let Err(step) = bundle.steps_before_acl() {
        acl::read(acl, &mut ()).and_then(|()| rules.check_suite()).map_err(refused)?;
        return Err(NotTrimmed::Failed(STEPS[step as usize]));
    }
    let kept = [Kept { officers: false, actions: 0 }; GROUPS];
    let mut keeping = Keeping { rules, groups: 0, kept, actions: 0, records: 0 };
    acl::read(acl, &mut keeping).map_err(refused)?;
    keeping.rules.check_suite().map_err(refused)?;
    let (new, hints) = (new.as_chunks_mut().0.get_mut(..keeping.records), hints.as_chunks_mut().0.get_mut(..keeping.groups));
    let (Some(new), Some(hints)) = (new, hints) else { return Err(refused(Refusal::ShortBuffer)) };
    write(acl, &keeping, new, hints);
    Ok((64 * keeping.records as u64, 64 * keeping.groups as u64))
}
