//! Makes calls that ask for places: files, calls and desk cases with one fault, several, or none.

use crate::acl::{Acl, Action, MakeBlob, Sort, MOST_GROUPS};
use crate::blobfile::BlobFile;
use crate::call::{Call, FileKind};
use crate::damage::{files_of, split};
use crate::encode;
use crate::generate::Generator;
use crate::ledger::COUNTERS;
use crate::make_breach::{BREACHES, HINT_BREACHES};
use crate::make_narrowing::Narrowing;
use crate::maker::Maker;
use crate::record::RECORD_LENGTH;
use crate::request::REDUCE_ACL;
use crate::text::TextKind;

impl Maker {
    /// The place in a file of any kind: mostly damaged, and as often by one thing too many or too
    /// few as at an edge of a record.
    pub fn locate_file_call(&mut self) -> Call {
        let made = self.random.pick(&TextKind::ALL);
        let mut call = Call::LocateFile {
            kind: made as u64,
            file: self.text_file(made),
        };
        if self.random.chance(70) {
            self.damage_call(&mut call);
        }
        self.lose_an_end(&mut call, 8);
        if let Call::LocateFile { kind, .. } = &mut call {
            *kind = self.kind_number(made);
        }
        call
    }

    /// With that chance, a file without the record that must come last: the record of kind 15 of
    /// its last action or of the request, the policy, or the request itself.
    pub fn lose_an_end(&mut self, call: &mut Call, percent: u64) {
        if !self.random.chance(percent) {
            return;
        }
        let mut files = files_of(call);
        let place = self.random.place(files.len());
        let (kind, file) = &mut files[place];
        let records = split(file);
        let due = records.iter().rposition(|record| record[0] == 15);
        let kept = match (due, kind) {
            (Some(due), _) => due,
            (None, FileKind::Acl | FileKind::NewAcl) => {
                let blob = Action::MakeBlob(MakeBlob {
                    allow_km_only: true,
                    blobfile: Some(BlobFile::default()),
                    ..MakeBlob::default()
                });
                file.extend(encode::action_record(&blob));
                return;
            }
            (None, FileKind::Bundle) => records.len().saturating_sub(1),
            (None, FileKind::Request) => 0,
            _ => return,
        };
        file.truncate(kept * RECORD_LENGTH);
    }

    /// The place behind a verdict: cases with one failing step, and with many.
    pub fn locate_verdict_call(&mut self) -> Call {
        if self.random.chance(60) {
            let mut call = self.desk_call();
            self.lose_an_end(&mut call, 4);
            return Call::Locate(Box::new(call));
        }
        let case = self.trim_case(2);
        Call::Locate(Box::new(Call::Desk {
            bundle: encode::bundle(&case.bundle),
            acl: encode::acl(&case.acl),
        }))
    }

    /// A narrowing broken several times over, which shows which breach is named: in groups first, for
    /// which the hints have to be sound, then perhaps in the hints.
    fn narrowing_of_many_breaches(&mut self, old: &Acl) -> Narrowing {
        let mut narrowing = self.narrowing(old, 10);
        for _ in 0..self.random.between(1, 3) {
            let breach = self.random.pick(&BREACHES[HINT_BREACHES..]);
            self.breaks(&mut narrowing, breach);
        }
        if self.random.chance(25) {
            let breach = self.random.pick(&BREACHES[..HINT_BREACHES]);
            self.breaks(&mut narrowing, breach);
        }
        narrowing
    }
}

impl Generator {
    /// The place behind the refusal of a request, a narrowing or an expansion.
    pub fn locate_call(&mut self, letter: u8, by_host: bool) -> Call {
        let mut call = match letter {
            b'G' => self.request_call(by_host),
            b'H' => {
                let old = self.acl_allowing(by_host, REDUCE_ACL);
                let narrowing = if self.maker.random.chance(55) {
                    self.some_narrowing(old)
                } else {
                    self.maker.narrowing_of_many_breaches(&old)
                };
                self.narrow_call_of(narrowing)
            }
            _ => self.expand_call(by_host),
        };
        self.maker.lose_an_end(&mut call, 5);
        Call::Locate(Box::new(call))
    }

    /// A count of the host's ACL, or a counter that it names, near its maximum or full.
    pub fn set_count_call(&mut self) -> Call {
        let groups = self.host().acl.groups.clone();
        let random = &mut self.maker.random;
        let any = random.place(MOST_GROUPS);
        let group = if groups.is_empty() || random.chance(10) {
            any
        } else {
            random.place(groups.len())
        };
        let limits = groups
            .get(group)
            .map_or(Vec::new(), |group| group.limits.clone());
        let full = u64::from(u32::MAX);
        let named = limits.iter().find_map(|limit| match limit.sort {
            Sort::Counter(counter) => Some((counter, u64::from(limit.maximum))),
            _ => None,
        });
        match (named, random.weighted(&[70, 30])) {
            (Some((counter, maximum)), 1) => Call::SetCount {
                index: (MOST_GROUPS + usize::from(counter)) as u64,
                value: random.pick(&[0, maximum.saturating_sub(1), maximum, full - 1, full]),
            },
            _ if random.chance(6) => Call::SetCount {
                index: (MOST_GROUPS + random.place(COUNTERS)) as u64,
                value: random.below(4),
            },
            _ => Call::SetCount {
                index: group as u64,
                value: random.pick(&[0, 1, full - 1, full, full]),
            },
        }
    }
}
