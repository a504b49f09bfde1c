//! Makes calls of the writer and the reader of texts: files of the five kinds and their texts, whole
//! and off by one thing.

use crate::acl::Acl;
use crate::bundle::{Bundle, LISTED_FIELD, MOST_LISTED};
use crate::call::{Bytes, Call};
use crate::encode;
use crate::listing::{listing, PERMISSIONS};
use crate::make_listing::{joined, word_places, words_of};
use crate::maker::Maker;
use crate::read_text::file_of;
use crate::record::Hash;
use crate::replace::{Hint, MOST_HINTS};
use crate::request::{read_request, Asked, Presented, Request};
use crate::script::LONGEST_BYTES;
use crate::text::{
    bundle_text, hints_text, request_text, requests_text, text_of, TextKind, FACTS, SIGNATURES,
};

/// The content of a file.
enum Said {
    Acl(Acl),
    Request(Request, Presented),
    Requests(Vec<Request>),
    Bundle(Box<Bundle>),
    Hints(Vec<Hint>),
}

impl Said {
    fn file(&self) -> Bytes {
        match self {
            Said::Acl(acl) => encode::acl(acl),
            Said::Request(request, presented) => encode::request(request, presented),
            Said::Requests(requests) => requests.iter().flat_map(encode::request_record).collect(),
            Said::Bundle(bundle) => encode::bundle(bundle),
            Said::Hints(hints) => encode::hints(hints),
        }
    }

    fn text(&self) -> String {
        match self {
            Said::Acl(acl) => listing(acl),
            Said::Request(request, presented) => request_text(request, presented),
            Said::Requests(requests) => requests_text(requests),
            Said::Bundle(bundle) => bundle_text(bundle),
            Said::Hints(hints) => hints_text(hints),
        }
    }
}

impl Maker {
    pub fn write_text_call(&mut self) -> Call {
        let made = self.text_kind();
        let mut call = Call::WriteText {
            kind: made as u64,
            file: self.text_file(made),
            buffer: Bytes::new(),
        };
        if self.random.chance(35) {
            self.damage_call(&mut call);
        }
        if let Call::WriteText { kind, file, buffer } = &mut call {
            *kind = self.kind_number(made);
            let text = TextKind::of(*kind).and_then(|kind| text_of(kind, file));
            *buffer = self.buffer_near(text.map_or(100, |text| text.len()));
        }
        call
    }

    pub fn read_text_call(&mut self) -> Call {
        let made = self.text_kind();
        let text = self.text(made);
        let kind = self.kind_number(made);
        let file = TextKind::of(kind).and_then(|kind| file_of(kind, &text));
        let buffer = self.buffer_near(file.map_or(100, |file| file.len()));
        Call::ReadText { kind, text, buffer }
    }

    fn text_kind(&mut self) -> TextKind {
        let [acl, request, requests, bundle, hints] = TextKind::ALL;
        let choices = [
            (8, acl),
            (32, request),
            (20, requests),
            (25, bundle),
            (15, hints),
        ];
        self.random.pick_weighted(&choices)
    }

    /// The number of the kind that was made; now and then that of another, or none of them.
    pub fn kind_number(&mut self, made: TextKind) -> u64 {
        let own = made as u64;
        let other = self.random.below(5);
        let none = self.random.pick(&[
            5,
            5,
            6,
            255,
            256 + own,
            own | 1 << 32,
            own | 1 << 63,
            u64::MAX,
        ]);
        self.random
            .pick_weighted(&[(93, own), (4, other), (3, none)])
    }

    /// A file of that kind, mostly without fault.
    pub fn text_file(&mut self, kind: TextKind) -> Bytes {
        self.said(kind).file()
    }

    /// A text of that kind, as written or off by one thing.
    pub fn text(&mut self, kind: TextKind) -> Bytes {
        if kind == TextKind::Acl {
            return self.listing_text();
        }
        let mut text = self.said(kind).text().into_bytes();
        for _ in 0..self.random.pick_weighted(&[(33, 0), (62, 1), (5, 2)]) {
            match self.random.weighted(&[60, 22, 14, 4]) {
                0 => self.change_text(&mut text),
                1 => self.change_name(&mut text),
                2 => self.keep_some_lines(&mut text),
                _ => self.repeat_last_line(kind, &mut text),
            }
        }
        text.truncate(LONGEST_BYTES);
        text
    }

    fn said(&mut self, kind: TextKind) -> Said {
        match kind {
            TextKind::Acl => Said::Acl(self.acl()),
            TextKind::Request => {
                let acl = self.acl();
                let asking = self.asking(&acl);
                let (mut request, mut presented) = (asking.request, asking.presented);
                self.vary_request(&mut request);
                self.vary_presented(&mut presented);
                Said::Request(request, presented)
            }
            TextKind::Requests => Said::Requests(self.said_requests()),
            TextKind::Bundle => Said::Bundle(Box::new(self.said_bundle())),
            TextKind::Hints => Said::Hints(self.said_hints()),
        }
    }

    /// Requests that stand alone; long files repeat what a few of them ask, and have no fault but
    /// their length.
    fn said_requests(&mut self) -> Vec<Request> {
        let few = self.random.between(2, 12);
        let numbers = [
            (60, 0),
            (200, 1),
            (700, few),
            (6, 999),
            (17, 1000),
            (17, 1001),
        ];
        let number = self.random.pick_weighted(&numbers) as usize;
        let acl = self.acl();
        let mut requests: Vec<Request> = Vec::new();
        while requests.len() < number {
            let mut request = if requests.len() < 20 {
                self.asking(&acl).request
            } else {
                self.random.pick(&requests[..20])
            };
            if self.random.chance(95) {
                request.blobfile = None;
            }
            self.vary_request(&mut request);
            let is_good = read_request(&encode::request_record(&request), None).is_ok();
            if is_good || number < 20 {
                requests.push(request);
            }
        }
        requests
    }

    /// Times of any length, any hash and any mechanism.
    fn vary_request(&mut self, request: &mut Request) {
        if self.random.chance(60) {
            request.time = self.any_number();
        }
        match &mut request.asked {
            Asked::Use(permission) => {
                if self.random.chance(50) {
                    *permission = self.random.below(16) as u8;
                }
            }
            Asked::Blob { module_key, token } => {
                self.vary_hash(module_key);
                if let Some(token) = token {
                    self.vary_hash(&mut token.hash);
                    if self.random.chance(40) {
                        token.parameters.time_limit = self.any_number() as u32;
                    }
                }
            }
            Asked::Recovery { key, mechanism } => {
                self.vary_hash(key);
                if self.random.chance(40) {
                    *mechanism = (self.any_number() as u16).max(1);
                }
            }
        }
    }

    fn vary_presented(&mut self, presented: &mut Presented) {
        for certificate in &mut presented.certificates {
            self.vary_hash(&mut certificate.key);
            if self.random.chance(20) {
                certificate.mechanism = (self.any_number() as u16).max(1);
            }
        }
        for delegation in &mut presented.delegations {
            self.vary_hash(&mut delegation.to);
            let bit = 1 << self.random.below(16);
            let mask = delegation.mask;
            delegation.mask = self.random.pick(&[mask, mask, 0, bit, !bit, u16::MAX]);
        }
    }

    /// A number near a power of ten, or one of any length.
    fn any_number(&mut self) -> u64 {
        let power = 10u64.pow(self.random.below(20) as u32);
        let any = self.random.next() >> self.random.below(64);
        self.random
            .pick(&[power, power - 1, any, any, any, u64::MAX])
    }

    /// Another hash, now and then, so that every digit comes up at every place.
    fn vary_hash(&mut self, hash: &mut Hash) {
        if self.random.chance(30) {
            hash.copy_from_slice(&self.random_bytes(20));
        }
    }

    /// A bundle that the desk may get, one with every record, one with few of them or one with the
    /// policy alone; its policy of any suite.
    fn said_bundle(&mut self) -> Bundle {
        let approach = self.random.pick(&[1, 2]);
        let mut bundle = self.desk_case(approach).bundle;
        let present = self.random.pick_weighted(&[
            (60, None),
            (15, Some(100)),
            (15, Some(40)),
            (10, Some(0)),
        ]);
        if let Some(percent) = present {
            for fact in &mut bundle.facts[1..] {
                *fact = self.random.chance(percent).then_some([0xa5; 20]);
            }
            let listed = MOST_LISTED * percent as usize / 100;
            bundle.listed.resize(listed, [LISTED_FIELD; 20]);
            for signature in &mut bundle.signatures[1..] {
                let good = self.random.chance(70);
                *signature = self.random.chance(percent).then_some(good);
            }
        }
        for hash in bundle.facts.iter_mut().flatten().chain(&mut bundle.listed) {
            self.vary_hash(hash);
        }
        let policy = &mut bundle.policy;
        policy.bits = self.random.below(8) as u8;
        policy.lowest_protection = self.random.between(1, 4) as u8;
        if self.random.chance(40) {
            policy.suite = self.random.next() as u8;
        }
        bundle
    }

    /// The hints of a narrowing, or hints that name anything, up to one too many.
    fn said_hints(&mut self) -> Vec<Hint> {
        if self.random.chance(40) {
            let acl = self.acl();
            return self.narrowing(&acl, 30).hints;
        }
        let few = self.random.between(1, 6) as usize;
        let most = MOST_HINTS;
        let numbers = [(5, 0), (80, few), (4, most - 1), (6, most), (5, most + 1)];
        let number = self.random.pick_weighted(&numbers);
        (0..number).map(|_| self.any_hint()).collect()
    }

    fn any_hint(&mut self) -> Hint {
        let mut hint = Hint::default();
        let bytes = hint.actions.iter_mut().chain([&mut hint.source]);
        for byte in bytes {
            let any = self.random.next() as u8;
            *byte = self
                .random
                .pick(&[0, 1, 7, 9, 10, 63, 64, 99, 100, 255, any, any]);
        }
        hint
    }

    /// Another name of the same list in place of one; now and then a name of another list.
    fn change_name(&mut self, text: &mut Bytes) {
        let lists: [&[&str]; 7] = [
            &PERMISSIONS,
            &FACTS,
            &SIGNATURES,
            &["good", "bad"],
            &["signing", "encryption", "csr"],
            &["from", "to", "kmhash", "kahash", "token"],
            &["use", "blob", "recovery", "certificate", "delegation"],
        ];
        let list_of = |word: &[u8]| {
            let has = |list: &&&[&str]| list.iter().any(|name| name.as_bytes() == word);
            lists.iter().find(has).copied()
        };
        let mut lines = words_of(text);
        let names = word_places(&lines, |word| list_of(word).is_some());
        if names.is_empty() {
            return;
        }
        let (line, place) = self.random.pick(&names);
        let own = list_of(&lines[line][place]).unwrap_or(&FACTS);
        let any = self.random.pick(&lists);
        let list = self.random.pick_weighted(&[(85, own), (15, any)]);
        lines[line][place] = Bytes::from(self.random.pick(list));
        *text = joined(&lines);
    }

    /// The first lines alone, or all but the first or the last; then, now and then, any line.
    fn keep_some_lines(&mut self, text: &mut Bytes) {
        let mut lines: Vec<Bytes> = text
            .split_inclusive(|byte| *byte == b'\n')
            .map(Bytes::from)
            .collect();
        match self.random.below(4) {
            0 => lines.truncate(1),
            1 => lines.truncate(2),
            2 if !lines.is_empty() => {
                lines.remove(0);
            }
            _ => {
                lines.pop();
            }
        }
        if self.random.chance(30) {
            lines.push(self.any_line());
        }
        *text = lines.concat();
    }

    /// The last line repeated up to the greatest number of lines, or one or two more.
    fn repeat_last_line(&mut self, kind: TextKind, text: &mut Bytes) {
        let lines: Vec<&[u8]> = text.split_inclusive(|byte| *byte == b'\n').collect();
        let Some(last) = lines.last() else { return };
        let number = kind.most_records() + self.random.place(3);
        let more = last.repeat(number.saturating_sub(lines.len()));
        text.extend(more);
    }
}

#[cfg(test)]
mod tests {
    use super::*;
    use crate::generate::generate;
    use crate::run_script::tally_script;

    /// Every answer of either call comes up for every kind of file that can get it.
    #[test]
    fn every_answer_comes_up() {
        let mut maker = Maker::new(33, true);
        let mut found = Vec::new();
        for _ in 0..20_000 {
            for call in [maker.write_text_call(), maker.read_text_call()] {
                let (letter, number) = match &call {
                    Call::WriteText { kind, .. } => ('V', *kind),
                    Call::ReadText { kind, .. } => ('U', *kind),
                    _ => unreachable!("calls of texts alone"),
                };
                let answer = crate::answer::State::fresh().answer(&mut call.clone());
                let name = format!("{letter} {} {}", number.min(5), answer.kind());
                if !found.contains(&name) {
                    found.push(name);
                }
            }
        }
        found.sort();
        let mut expected = vec!["U 5 refuse 10".to_string(), "V 5 refuse 10".to_string()];
        for kind in 0..5 {
            for answer in ["length", "refuse 15", "refuse 9"] {
                expected.push(format!("U {kind} {answer}"));
            }
            for answer in ["length", "refuse 1", "refuse 2", "refuse 9"] {
                expected.push(format!("V {kind} {answer}"));
            }
        }
        for (kind, number) in [(0, 3), (0, 12), (1, 3), (3, 3)] {
            expected.push(format!("V {kind} refuse {number}"));
        }
        expected.sort();
        assert_eq!(found, expected);
    }

    #[test]
    fn scripts_of_texts_alone() {
        let mut script = Bytes::new();
        generate(&mut script, 5, 300, "VU").unwrap();
        let mut tally = Vec::new();
        tally_script(&mut &script[..], &mut tally, "VU").unwrap();
        let tally = String::from_utf8(tally).unwrap();
        for answer in ["V length", "V refuse 2", "U length", "U refuse 15"] {
            assert!(tally.contains(answer), "{answer} is missing");
        }
    }

    /// The first line over the greatest number of them comes up as the bad one.
    #[test]
    fn texts_of_one_line_too_many() {
        let mut maker = Maker::new(34, true);
        for (kind, rounds) in [
            (TextKind::Requests, 300),
            (TextKind::Bundle, 3000),
            (TextKind::Hints, 300),
        ] {
            let line = kind.most_records() + 1;
            let too_many = Err(crate::record::Refusal::NotALine { line });
            let found = (0..rounds).any(|_| file_of(kind, &maker.text(kind)) == too_many);
            assert!(found, "{kind:?}");
        }
    }
}
