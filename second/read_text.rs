//! Reading a text back: each line is parsed word by word into its record, and the record is then
//! read like one of a file.

use crate::blobfile::BLOBFILE_FLAG;
use crate::call::Bytes;
use crate::encode::{put, put_hash, record, RecordBytes};
use crate::listing::PERMISSIONS;
use crate::read_file::FileReader;
use crate::read_listing::{acl_record, optional_flag, put_mechanism, Words};
use crate::record::{write_front, Record, Refusal};
use crate::text::{TextKind, FACTS, SIGNATURES};

/// Reads a text of that kind: 15 and the first bad line, then 9. An unknown kind is refused before
/// anything else is looked at.
pub fn read_text(kind: u64, text: &[u8], buffer: &mut [u8]) -> Result<usize, Refusal> {
    write_front(buffer, &file_of(TextKind::of(kind)?, text)?)
}

/// The file of a text. A line past the file's greatest number of records is a bad line.
pub fn file_of(kind: TextKind, text: &[u8]) -> Result<Bytes, Refusal> {
    let mut reader = FileReader::of(kind);
    let mut file = Bytes::new();
    let mut next = 1;
    for (place, line) in text.split_inclusive(|byte| *byte == b'\n').enumerate() {
        let not_a_line = Refusal::NotALine { line: place + 1 };
        if place == kind.most_records() {
            return Err(not_a_line);
        }
        let record = record_of(line).ok_or(not_a_line)?;
        reader.add(Record::of(&record)).or(Err(not_a_line))?;
        file.extend(record);
        next = place + 2;
    }
    reader.end().or(Err(Refusal::NotALine { line: next }))?;
    Ok(file)
}

/// The record of a line, which the file's reader may still refuse; none if the line has no known
/// form.
fn record_of(line: &[u8]) -> Option<RecordBytes> {
    // A last line without byte 10 is not a written line.
    let mut words = Words::of(line.strip_suffix(b"\n")?);
    let record = match words.next()? {
        b"use" => use_record(&mut words),
        b"blob" => blob_record(&mut words),
        b"recovery" => recovery_record(&mut words),
        b"certificate" => certificate_record(&mut words),
        b"delegation" => delegation_record(&mut words),
        b"fact" => fact_record(&mut words),
        b"signature" => signature_record(&mut words),
        b"policy" => policy_record(&mut words),
        b"hint" => hint_record(&mut words),
        first => acl_record(first, &mut words),
    };
    record.filter(|_| words.is_empty())
}

/// The place of the next word in a list of names.
fn place_in(words: &mut Words, names: &[&str]) -> Option<u8> {
    let name = words.next()?;
    let place = names.iter().position(|known| known.as_bytes() == name)?;
    Some(place as u8)
}

/// `time N`, the end of every request's line.
fn put_time(words: &mut Words, record: &mut RecordBytes) -> Option<()> {
    let time: u64 = words.named_number("time")?;
    put(record, 56, &time.to_be_bytes());
    Some(())
}

/// `use PERMISSION time N`
fn use_record(words: &mut Words) -> Option<RecordBytes> {
    let mut bytes = record(6);
    bytes[4] = place_in(words, &PERMISSIONS)?;
    put_time(words, &mut bytes)?;
    Some(bytes)
}

/// `blob kmhash HASH [token HASH [AllowSoftSlots] needed N total N seconds N] [blobfile] time N`
fn blob_record(words: &mut Words) -> Option<RecordBytes> {
    let mut bytes = record(7);
    put(&mut bytes, 4, &words.named_hash("kmhash")?);
    if words.take("token") {
        put_hash(&mut bytes, 0, 24, &words.hash()?);
        put(&mut bytes, 44, &words.parameters()?);
    }
    optional_flag(words, "blobfile", &mut bytes, BLOBFILE_FLAG);
    put_time(words, &mut bytes)?;
    Some(bytes)
}

/// `recovery kahash HASH mechanism N [blobfile] time N`
fn recovery_record(words: &mut Words) -> Option<RecordBytes> {
    let mut bytes = record(8);
    put(&mut bytes, 4, &words.named_hash("kahash")?);
    put_mechanism(words, &mut bytes)?;
    optional_flag(words, "blobfile", &mut bytes, BLOBFILE_FLAG);
    put_time(words, &mut bytes)?;
    Some(bytes)
}

/// `certificate HASH mechanism N`
fn certificate_record(words: &mut Words) -> Option<RecordBytes> {
    let mut bytes = record(9);
    put(&mut bytes, 4, &words.hash()?);
    put_mechanism(words, &mut bytes)?;
    Some(bytes)
}

/// `delegation from HASH to HASH [PERMISSION ..]`
fn delegation_record(words: &mut Words) -> Option<RecordBytes> {
    let mut bytes = record(14);
    put(&mut bytes, 4, &words.named_hash("from")?);
    put(&mut bytes, 24, &words.named_hash("to")?);
    put(&mut bytes, 44, &words.permissions().to_be_bytes());
    Some(bytes)
}

/// `fact NAME HASH`
fn fact_record(words: &mut Words) -> Option<RecordBytes> {
    let mut bytes = record(10);
    bytes[4] = place_in(words, &FACTS)? + 1;
    put(&mut bytes, 8, &words.hash()?);
    Some(bytes)
}

/// `signature NAME good` or `signature NAME bad`
fn signature_record(words: &mut Words) -> Option<RecordBytes> {
    let mut bytes = record(11);
    bytes[4] = place_in(words, &SIGNATURES)? + 1;
    bytes[5] = place_in(words, &["bad", "good"])?;
    Some(bytes)
}

/// `policy suite N approach N [signing] [encryption] [csr] protection N`
fn policy_record(words: &mut Words) -> Option<RecordBytes> {
    let mut bytes = record(12);
    bytes[4] = words.named_number("suite")?;
    bytes[5] = words.named_number("approach")?;
    for (bit, name) in ["signing", "encryption", "csr"].iter().enumerate() {
        if words.take(name) {
            bytes[6] |= 1 << bit;
        }
    }
    bytes[7] = words.named_number("protection")?;
    Some(bytes)
}

/// `hint group N actions N N N N N N N N`
fn hint_record(words: &mut Words) -> Option<RecordBytes> {
    let mut bytes = record(13);
    bytes[4] = words.named_number("group")?;
    words.take("actions").then_some(())?;
    for action in &mut bytes[8..16] {
        *action = words.number()?;
    }
    Some(bytes)
}
