//! ACLs at the edges of their rules: one thing too many, one out of place, one barely good or barely
//! bad.

use crate::acl::{
    Acl, Action, Group, Limit, MakeArchiveBlob, MakeBlob, Sort, TokenParameters, MOST_ACTIONS,
    MOST_GROUPS,
};
use crate::call::Bytes;
use crate::encode;
use crate::maker::Maker;
use crate::record::RECORD_LENGTH;

impl Maker {
    /// An ACL at an edge: one thing too many, one out of place, one barely good or barely bad.
    pub fn edge_acl(&mut self) -> Bytes {
        let acl = self.edge_groups();
        match self.random.below(18) {
            0 => self.edge_sort(&acl),
            1 | 2 => self.limit_out_of_place(&acl),
            3 => encode::acl(&acl)[RECORD_LENGTH..].to_vec(),
            4 => self.two_before_three(&acl),
            5..=8 => self.edge_blobfile(acl),
            _ => encode::acl(&acl),
        }
    }

    /// A kind 15 record missing, twice, out of place, malformed or barely good, or an end where it
    /// is due.
    fn edge_blobfile(&mut self, mut acl: Acl) -> Bytes {
        acl.groups.truncate(3);
        let stored = MakeBlob {
            blobfile: Some(self.blobfile()),
            ..self.make_blob()
        };
        let place = self.random.place(acl.groups.len());
        let group = &mut acl.groups[place];
        group.actions.truncate(MOST_ACTIONS - 1);
        let at = self.random.place(group.actions.len() + 1);
        group.actions.insert(at, Action::MakeBlob(stored));
        let mut records = encode::acl_records(&acl);
        let files: Vec<usize> = (0..records.len())
            .filter(|place| records[*place][0] == 15)
            .collect();
        let place = self.random.pick(&files);
        let any = self.random.place(records.len() + 1);
        match self.random.weighted(&[1, 1, 1, 1, 1, 1, 2, 4, 1]) {
            0 => {
                records.remove(place);
            }
            1 => records.insert(place, records[place]),
            2 => records.insert(any, records[place]),
            3 => records.truncate(place),
            4 => records[place - 1][3] ^= 1 << 6,
            5 => records[any.min(place)][3] ^= 1 << 6,
            6 => records[place][3] ^= self.random.pick(&[1, 2, 4, 4, 128]),
            7 => {
                let byte = self.random.pick(&[1, 2, 4, 7, 8, 27, 28, 28, 28, 63]);
                records[place][byte] ^= self.random.pick(&[1, 128]);
            }
            _ => records.swap(place - 1, place),
        }
        records.concat()
    }

    /// Groups with one thing too many, or one barely good or barely bad.
    pub fn edge_groups(&mut self) -> Acl {
        let mut acl = self.acl();
        acl.groups.truncate(4);
        if acl.groups.is_empty() {
            acl.groups.push(self.group(0));
        }
        let place = self.random.place(acl.groups.len());
        let group = &mut acl.groups[place];
        match self.random.below(13) {
            0 => self.groups_up_to(&mut acl, MOST_GROUPS + 1),
            1 => self.groups_up_to(&mut acl, MOST_GROUPS),
            2 => self.five_limits(group),
            3 => self.actions_up_to(group, MOST_ACTIONS + 1),
            4 => self.actions_up_to(group, MOST_ACTIONS),
            5 => self.repeat_a_limit(group),
            6 => self.edge_certification(group),
            7 => {
                let action = self.edge_action();
                group.actions.truncate(MOST_ACTIONS - 1);
                let place = self.random.place(group.actions.len() + 1);
                group.actions.insert(place, action);
            }
            8..=11 => self.open_archive(group),
            _ => group.limits = vec![self.edge_limit()],
        }
        acl
    }

    /// An archive action without a key, mostly in an open group; now and then it is malformed too,
    /// or the ninth action.
    pub fn open_archive(&mut self, group: &mut Group) {
        if self.random.chance(75) {
            group.certifier = None;
            group.mechanism = None;
        }
        let before = self.random.pick(&[0, 1, 2, MOST_ACTIONS - 1, MOST_ACTIONS]);
        self.actions_up_to(group, before);
        group.actions.truncate(before);
        self.name_keys(group);
        group.actions.push(Action::MakeArchiveBlob(MakeArchiveBlob {
            kahash: None,
            mechanism: self.random.pick(&[0, 1, 1, 2, 256]),
            blobfile: self.maybe_blobfile(),
        }));
    }

    /// A 65th group, a ninth action or a fifth limit.
    pub fn overfill(&mut self, acl: &mut Acl) {
        match self.random.below(3) {
            0 => self.groups_up_to(acl, MOST_GROUPS + 1),
            1 => self.actions_up_to(&mut acl.groups[0], MOST_ACTIONS + 1),
            _ => self.five_limits(&mut acl.groups[0]),
        }
    }

    fn groups_up_to(&mut self, acl: &mut Acl, number: usize) {
        while acl.groups.len() < number {
            let mut group = self.group(acl.groups.len().min(MOST_GROUPS - 1));
            group.actions.truncate(1);
            acl.groups.push(group);
        }
    }

    fn actions_up_to(&mut self, group: &mut Group, number: usize) {
        while group.actions.len() < number {
            let action = self.action();
            group.actions.push(action);
        }
    }

    /// Five limits, all different, or the fifth a repeat: then 2 comes before 3.
    fn five_limits(&mut self, group: &mut Group) {
        let mut sorts = vec![
            Sort::UsesPerLoad,
            Sort::SecondsSinceLoad,
            Sort::Counter(0),
            Sort::Counter(96),
            Sort::Counter(255),
        ];
        self.random.shuffle(&mut sorts);
        if self.random.chance(35) {
            sorts[4] = sorts[self.random.place(4)];
        }
        group.limits = sorts
            .into_iter()
            .map(|sort| Limit {
                sort,
                maximum: u32::MAX,
            })
            .collect();
    }

    fn repeat_a_limit(&mut self, group: &mut Group) {
        let sort = self.sort();
        group.limits.truncate(1);
        group.limits.retain(|limit| limit.sort != sort);
        for maximum in [7, 9] {
            let place = self.random.place(group.limits.len() + 1);
            group.limits.insert(place, Limit { sort, maximum });
        }
    }

    /// Mechanism without certifier, mechanism zero, and the good neighbours of both.
    fn edge_certification(&mut self, group: &mut Group) {
        group.certifier = self.random.chance(50).then(|| self.certifier());
        group.mechanism = self
            .random
            .pick(&[None, Some(0), Some(1), Some(256), Some(65535)]);
    }

    /// A limit of a counter at an edge.
    fn edge_limit(&mut self) -> Limit {
        let counter = self.random.pick(&[0, 95, 96, 127, 128, 254, 255]);
        Limit {
            sort: Sort::Counter(counter),
            maximum: self.random.pick(&[0, 1, 5, u32::MAX]),
        }
    }

    /// The first limit of the file with any sort, good or bad, and any byte where a counter would
    /// stand.
    fn edge_sort(&mut self, acl: &Acl) -> Bytes {
        let mut records = encode::acl_records(acl);
        if let Some(limit) = records.iter_mut().find(|record| record[0] == 2) {
            limit[4] = self.random.pick(&[0, 1, 1, 3, 3, 4, 255]);
            limit[5] = self.random.pick(&[0, 1, 255]);
        }
        records.concat()
    }

    /// An action barely good or barely bad.
    fn edge_action(&mut self) -> Action {
        match self.random.below(4) {
            0 => Action::MakeArchiveBlob(MakeArchiveBlob {
                kahash: None,
                mechanism: self.random.pick(&[0, 1, 256]),
                blobfile: None,
            }),
            _ => {
                let ktparams = Some(self.edge_parameters());
                Action::MakeBlob(MakeBlob {
                    ktparams,
                    ..self.make_blob()
                })
            }
        }
    }

    /// Token parameters barely good or barely bad.
    pub fn edge_parameters(&mut self) -> TokenParameters {
        let (needed, total) = self.random.pick(&[
            (0, 1),
            (0, 0),
            (1, 0),
            (1, 1),
            (2, 1),
            (1, 64),
            (64, 64),
            (1, 65),
            (64, 65),
            (65, 65),
            (65, 64),
            (64, 63),
            (255, 255),
        ]);
        let flags = self.random.pick(&[0, 0, 0, 1, 1, 2, 3, 256, 0x8000]);
        TokenParameters {
            flags,
            needed,
            total,
            time_limit: self.time_limit(),
        }
    }

    /// A limit before the first group or after an action of its group.
    fn limit_out_of_place(&mut self, acl: &Acl) -> Bytes {
        let mut records = encode::acl_records(acl);
        let limit = encode::limit_record(&Limit {
            sort: Sort::Counter(33),
            maximum: 9,
        });
        let after_action = records
            .iter()
            .position(|record| (3..=5).contains(&record[0]));
        let place = match after_action {
            Some(place) if self.random.chance(75) => place + 1,
            _ => 0,
        };
        records.insert(place, limit);
        records.concat()
    }

    /// A record that is both malformed and one too many, or a malformed record beside one too many.
    fn two_before_three(&mut self, acl: &Acl) -> Bytes {
        let mut acl = acl.clone();
        self.overfill(&mut acl);
        let mut records = encode::acl_records(&acl);
        let place = match self.random.below(3) {
            // The last group of all, which may be the 65th.
            0 => {
                while records.len() > 1 && records.last().is_some_and(|record| record[0] != 1) {
                    records.pop();
                }
                records.len() - 1
            }
            // The last record of the first group, which may be its ninth action.
            1 => acl.groups[0].limits.len() + acl.groups[0].actions.len(),
            _ => self.random.place(records.len()),
        };
        let byte = self.random.pick(&[1, 2, 3, 12, 55, 60, 63]);
        records[place][byte] ^= 0x80;
        records.concat()
    }
}
