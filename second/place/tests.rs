use super::*;
use crate::encode::{record, RecordBytes};

/// A record of that kind with one byte set.
fn with(kind: u8, place: usize, byte: u8) -> RecordBytes {
    let mut bytes = record(kind);
    bytes[place] = byte;
    bytes
}

/// MakeBlob with AllowKmOnly and flag 6: a record of kind 15 has to follow.
fn stored_blob() -> RecordBytes {
    with(4, 3, 0b100_0001)
}

fn words(kind: u64, file: &[u8]) -> String {
    Place::File(locate_file(kind, file)).words()
}

fn row(kind: u64, records: &[RecordBytes], numbers: &str) {
    let words = words(kind, &records.concat());
    assert_eq!(words, format!("place {numbers}"), "kind {kind}");
}

#[test]
fn lengths_come_first_and_name_no_record() {
    let most = [1344, 50, 1000, 52, 64];
    for (kind, most) in (0..).zip(most) {
        let longest = vec![0; most * 64];
        assert_ne!(words(kind, &longest), "place 1 1 -");
        assert_eq!(words(kind, &vec![0; (most + 1) * 64]), "place 1 1 -");
        assert_eq!(words(kind, &[0; 65]), "place 1 1 -");
    }
}

#[test]
fn an_unknown_kind_is_refused_first() {
    for kind in [5, 255, 1 << 32, u64::MAX] {
        assert_eq!(words(kind, &[0; 65]), "place 10 0 -");
    }
}

#[test]
fn files_without_fault() {
    for kind in [0, 2, 4] {
        row(kind, &[], "0 0 -");
    }
    row(0, &[record(1), stored_blob(), record(15)], "0 0 -");
    row(1, &[record(6), with(9, 25, 1), record(14)], "0 0 -");
    row(2, &[record(6), record(6)], "0 0 -");
    let mut policy = record(12);
    policy[4..8].copy_from_slice(&[9, 2, 0, 1]);
    // The suite is no fault of a file, nor is what a hint names.
    row(3, &[with(10, 4, 1), with(11, 4, 6), policy], "0 0 -");
    row(4, &[with(13, 4, 200)], "0 0 -");
}

#[test]
fn the_first_bad_record() {
    let group = record(1);
    // A limit before any group; byte 1; a limit after an action; a kind of another file.
    row(0, &[with(2, 4, 1), group], "2 2 0");
    row(0, &[group, with(1, 1, 1), with(1, 1, 1)], "2 2 1");
    row(0, &[group, record(3), with(2, 4, 1)], "2 2 2");
    row(0, &[group, record(6)], "2 2 1");
    // Another record where kind 15 must come next; kind 15 where it must not.
    row(0, &[group, stored_blob(), group], "2 2 2");
    row(0, &[group, record(15)], "2 2 1");
    // One too many: the ninth action, the sixty-fifth group; 2 comes before it.
    let mut nine = vec![group];
    nine.extend([record(3); 9]);
    row(0, &nine, "3 2 9");
    nine[9][1] = 1;
    row(0, &nine, "2 2 9");
    row(0, &[group; 65], "3 2 64");
    // An open archive action, after a good one in a group with a certifier.
    let archive = with(5, 25, 1);
    row(0, &[with(1, 3, 1), archive, group, archive], "12 2 3");
    // A request's certificates and delegations.
    row(1, &[record(9)], "2 2 0");
    row(1, &[with(6, 4, 16)], "2 2 0");
    row(1, &[record(6), with(9, 25, 1), record(9)], "2 2 2");
    row(1, &[record(6), record(14), with(9, 25, 1)], "2 2 2");
    let mut certified = vec![record(6)];
    certified.extend([with(9, 25, 1); 33]);
    row(1, &certified, "3 2 33");
    let mut delegated = vec![record(6)];
    delegated.extend([record(14); 17]);
    row(1, &delegated, "3 2 17");
    // A request alone has neither certificates nor a record of kind 15.
    row(2, &[record(6), with(9, 25, 1)], "2 2 1");
    let mut stored = with(8, 25, 1);
    stored[3] = 1 << 6;
    row(2, &[record(6), record(6), stored], "2 2 2");
    // A bundle's records rise; the thirty-third listed key.
    row(3, &[with(10, 4, 2), with(10, 4, 1)], "2 2 1");
    row(3, &[with(10, 4, 2), with(10, 4, 2)], "2 2 1");
    row(3, &[with(11, 4, 7)], "2 2 0");
    row(3, &[with(10, 4, 14); 33], "3 2 32");
    row(4, &[record(13), with(13, 16, 1)], "2 2 1");
}

#[test]
fn a_fault_at_the_end_has_the_number_of_records() {
    row(0, &[record(1), stored_blob()], "2 3 2");
    row(1, &[], "2 3 0");
    let mut stored = with(8, 25, 1);
    stored[3] = 1 << 6;
    row(1, &[stored], "2 3 1");
    row(3, &[], "2 3 0");
    row(3, &[with(10, 4, 1), with(11, 4, 1)], "2 3 2");
}
