//! Makes calls of the listing's writer and reader: texts as written, and texts off by one thing.

use crate::call::{Bytes, Call};
use crate::encode;
use crate::listing::{listing, write_listing, PERMISSIONS};
use crate::maker::Maker;
use crate::read_listing::read_listing;
use crate::script::LONGEST_BYTES;

impl Maker {
    pub fn write_listing_call(&mut self) -> Call {
        let mut call = Call::WriteListing {
            acl: encode::acl(&self.acl()),
            buffer: Bytes::new(),
        };
        if self.random.chance(30) {
            self.damage_call(&mut call);
        }
        if let Call::WriteListing { acl, buffer } = &mut call {
            let length = write_listing(acl, &mut vec![0; LONGEST_BYTES]).unwrap_or(100);
            *buffer = self.buffer_near(length);
        }
        call
    }

    pub fn read_listing_call(&mut self) -> Call {
        let text = self.listing_text();
        let length = read_listing(&text, &mut vec![0; LONGEST_BYTES]).unwrap_or(100);
        let buffer = self.buffer_near(length);
        Call::ReadListing { text, buffer }
    }

    /// A listing as written, or off by one thing.
    pub fn listing_text(&mut self) -> Bytes {
        let mut text = match self.random.weighted(&[70, 30]) {
            0 => listing(&self.acl()).into_bytes(),
            // Lines of records that may be malformed, out of place or too many.
            _ => listing(&self.edge_groups()).into_bytes(),
        };
        for _ in 0..self.random.pick_weighted(&[(30, 0), (65, 1), (5, 2)]) {
            self.change_text(&mut text);
        }
        text.truncate(LONGEST_BYTES);
        text
    }

    /// A lent buffer with old bytes in it: exact, one short, one longer, longer, or empty.
    pub fn buffer_near(&mut self, exact: usize) -> Bytes {
        let longer = exact + self.random.place(200);
        let any = self.random.place(exact + 1);
        let choices = [
            (45, exact),
            (12, exact.saturating_sub(1)),
            (10, exact + 1),
            (20, longer),
            (4, 0),
            (4, any),
        ];
        let length = self.random.pick_weighted(&choices).min(LONGEST_BYTES);
        if self.random.chance(70) {
            return vec![0xee; length];
        }
        self.random_bytes(length)
    }

    /// One thing about the text changed: a line, a word or a byte.
    pub fn change_text(&mut self, text: &mut Bytes) {
        match self.random.weighted(&[12, 22, 50, 16]) {
            0 => self.change_end(text),
            1 => self.change_lines(text),
            2 => self.change_words(text),
            _ => self.change_byte(text),
        }
    }

    /// An unfinished last line, an empty one, or other bytes at the end.
    fn change_end(&mut self, text: &mut Bytes) {
        match self.random.below(8) {
            0 => {
                text.pop();
            }
            1 => text.push(b'\n'),
            2 => text.extend(b"group"),
            3 => text.truncate(self.random.place(text.len() + 1)),
            4..=6 => self.cut_where_blobfile_is_due(text),
            _ => text.push(self.random.pick(b" \r\0\xff")),
        }
    }

    /// An end, or any line, where the line of a blobfile is due.
    fn cut_where_blobfile_is_due(&mut self, text: &mut Bytes) {
        let word = b" blobfile\n";
        let ends: Vec<usize> = (0..text.len())
            .filter(|place| text[*place..].starts_with(word))
            .map(|place| place + word.len())
            .collect();
        if ends.is_empty() {
            text.extend(b"group\nMakeBlob blobfile\n");
        } else {
            text.truncate(self.random.pick(&ends));
        }
        if self.random.chance(40) {
            text.extend(self.any_line());
        }
    }

    /// A line dropped, twice, in its neighbour's place, empty, or any other line between them.
    fn change_lines(&mut self, text: &mut Bytes) {
        let mut lines: Vec<Bytes> = text
            .split_inclusive(|byte| *byte == b'\n')
            .map(Bytes::from)
            .collect();
        let number = lines.len();
        match self.random.below(5) {
            0 if number > 0 => {
                lines.remove(self.random.place(number));
            }
            1 if number > 0 => {
                let place = self.random.place(number);
                lines.insert(place, lines[place].clone());
            }
            2 if number > 1 => {
                let place = self.random.place(number - 1);
                lines.swap(place, place + 1);
            }
            3 => lines.insert(self.random.place(number + 1), b"\n".to_vec()),
            _ => {
                let line = self.any_line();
                lines.insert(self.random.place(number + 1), line);
            }
        }
        *text = lines.concat();
    }

    pub fn any_line(&mut self) -> Bytes {
        let lines: [&[u8]; 20] = [
            b"group\n",
            b"limit uses 5\n",
            b"limit counter 7 uses 4294967295\n",
            b"limit seconds 0\n",
            b"OpPermissions\n",
            b"MakeBlob\n",
            b"MakeArchiveBlob mechanism 1\n",
            b"blobfile\n",
            b"blobfile devices 4294967295\n",
            b"MakeBlob AllowKmOnly blobfile\n",
            b"# group\n",
            b"use Sign time 0\n",
            b"blob kmhash 0000000000000000000000000000000000000000 time 7\n",
            b"recovery kahash 0000000000000000000000000000000000000000 mechanism 1 blobfile time 7\n",
            b"certificate 0000000000000000000000000000000000000000 mechanism 1\n",
            b"delegation from 0000000000000000000000000000000000000000 to 0000000000000000000000000000000000000000\n",
            b"fact modulekey 0000000000000000000000000000000000000000\n",
            b"signature keygeneration bad\n",
            b"policy suite 1 approach 2 protection 1\n",
            b"hint group 0 actions 0 0 0 0 0 0 0 0\n",
        ];
        self.random.pick(&lines).to_vec()
    }

    /// One word of one line changed, twice, dropped, swapped with the next, or another put in.
    fn change_words(&mut self, text: &mut Bytes) {
        let mut lines = words_of(text);
        let numbers = word_places(&lines, is_number);
        if !numbers.is_empty() && self.random.chance(45) {
            let (line, place) = self.random.pick(&numbers);
            self.change_number(&mut lines[line][place]);
            *text = joined(&lines);
            return;
        }
        let hashes = word_places(&lines, |word| word.len() == 40);
        if !hashes.is_empty() && self.random.chance(25) {
            let (line, place) = self.random.pick(&hashes);
            self.change_hash(&mut lines[line][place]);
            *text = joined(&lines);
            return;
        }
        let line = self.random.place(lines.len().saturating_sub(1).max(1));
        let words = &mut lines[line];
        let place = self.random.place(words.len());
        match self.random.weighted(&[50, 8, 8, 12, 14, 8]) {
            0 => self.change_letter(&mut words[place]),
            1 => {
                words.remove(place);
            }
            2 => words.insert(place, words[place].clone()),
            3 if place + 1 < words.len() => words.swap(place, place + 1),
            4 => words.insert(place + 1, self.any_word()),
            // Two spaces, or one at the end.
            _ => words.insert(place + 1, Bytes::new()),
        }
        *text = joined(&lines);
    }

    fn any_word(&mut self) -> Bytes {
        let permission = self.random.pick(&PERMISSIONS);
        let word = self.random.pick(&[
            "AllowKmOnly",
            "AllowNonKm0",
            "AllowNullKmToken",
            "AllowSoftSlots",
            "mechanism",
            "certifier",
            "uses",
            "seconds",
            "needed",
            "blobfile",
            "blobfile",
            "devices",
            "template",
            "token",
            "time",
            "signing",
            "csr",
            "good",
            "actions",
            "0",
            "1",
            permission,
            permission,
            permission,
        ]);
        word.as_bytes().to_vec()
    }

    /// Another number near an edge, or another form of the same number.
    fn change_number(&mut self, word: &mut Bytes) {
        let edges: [&[u8]; 20] = [
            b"0",
            b"1",
            b"00",
            b"64",
            b"65",
            b"95",
            b"254",
            b"255",
            b"256",
            b"65535",
            b"65536",
            b"65537",
            b"65538",
            b"4294967295",
            b"4294967296",
            b"4294967297",
            b"18446744073709551616",
            b"18446744073709551617",
            b"-1",
            b"",
        ];
        match self.random.below(7) {
            0 => word.insert(0, b'0'),
            1 => word.insert(0, self.random.pick(b"+ 0")),
            2 => word.push(self.random.pick(b"0x_")),
            // The same number in its low bits.
            3 | 4 => {
                let number = String::from_utf8_lossy(word).parse().unwrap_or(1u128);
                let more = 1 << self.random.pick(&[8, 16, 16, 32, 64]);
                *word = (number + more).to_string().into_bytes();
            }
            _ => *word = self.random.pick(&edges).to_vec(),
        }
    }

    /// A hash with a digit too few or too many, one that is none, or one upper-case digit.
    fn change_hash(&mut self, word: &mut Bytes) {
        let place = self.random.place(word.len());
        match self.random.below(4) {
            0 => {
                word.remove(place);
            }
            1 => word.insert(place, word[place]),
            _ => word[place] = self.random.pick(b"ABCDEFgG :/@`-"),
        }
    }

    /// A word off by one letter.
    fn change_letter(&mut self, word: &mut Bytes) {
        if word.is_empty() {
            return word.push(b'0');
        }
        let place = self.random.place(word.len());
        match self.random.below(5) {
            0 => word[place] = word[place].to_ascii_uppercase(),
            1 => word[place] = word[place].to_ascii_lowercase(),
            2 => {
                word.remove(place);
            }
            3 => word.insert(place, word[place]),
            _ => word[place] = self.random.pick(b"0123456789abcdefg"),
        }
    }

    fn change_byte(&mut self, text: &mut Bytes) {
        if text.is_empty() {
            return text.push(b'\n');
        }
        let place = self.random.place(text.len());
        match self.random.below(4) {
            0 => text[place] ^= 1 << self.random.below(8),
            1 => text[place] = self.random.pick(b"\n\r\t 0\0"),
            2 => {
                text.remove(place);
            }
            // A byte before the end of the line.
            _ => {
                let end = text[place..].iter().position(|byte| *byte == b'\n');
                text.insert(place + end.unwrap_or(0), self.random.pick(b"\r\r\t \0"));
            }
        }
    }
}

/// The places, by line and word, of the words that are such.
pub fn word_places(lines: &[Vec<Bytes>], is_such: impl Fn(&[u8]) -> bool) -> Vec<(usize, usize)> {
    (0..lines.len())
        .flat_map(|line| (0..lines[line].len()).map(move |place| (line, place)))
        .filter(|(line, place)| is_such(&lines[*line][*place]))
        .collect()
}

/// Whether a word is a number, and no hash that happens to have no letter in it.
fn is_number(word: &[u8]) -> bool {
    (1..40).contains(&word.len()) && word.iter().all(u8::is_ascii_digit)
}

/// The words of each line of a text; after a last byte 10 comes a line of one empty word.
pub fn words_of(text: &[u8]) -> Vec<Vec<Bytes>> {
    text.split(|byte| *byte == b'\n')
        .map(|line| line.split(|byte| *byte == b' ').map(Bytes::from).collect())
        .collect()
}

/// The text of these lines' words.
pub fn joined(lines: &[Vec<Bytes>]) -> Bytes {
    let lines: Vec<Bytes> = lines.iter().map(|words| words.join(&b' ')).collect();
    lines.join(&b'\n')
}
