use super::*;
use crate::call::Bytes;
use crate::maker::Maker;
use crate::read_text::{file_of, read_text};

/// A record by its kind and those of its bytes that are not zero, each part with its first byte.
fn record(kind: u8, parts: &[(usize, &[u8])]) -> [u8; 64] {
    let mut bytes = [0; 64];
    bytes[0] = kind;
    for (place, part) in parts {
        bytes[*place..*place + part.len()].copy_from_slice(part);
    }
    bytes
}

const HASH: [u8; 20] = [
    0x00, 0x11, 0x22, 0x33, 0x44, 0x55, 0x66, 0x77, 0x88, 0x99, 0xaa, 0xbb, 0xcc, 0xdd, 0xee, 0xff,
    0x01, 0x23, 0xab, 0xcd,
];
const HASH_DIGITS: &str = "00112233445566778899aabbccddeeff0123abcd";

/// Both ways: the file's text is this one, and the text's file is that one.
fn both_ways(kind: TextKind, records: &[[u8; 64]], text: &str) {
    let text = text.replace("HASH", HASH_DIGITS);
    let file = records.concat();
    assert_eq!(text_of(kind, &file).as_deref(), Ok(text.as_str()));
    assert_eq!(file_of(kind, text.as_bytes()), Ok(file), "{text}");
}

fn bad_line(kind: TextKind, text: &str) -> usize {
    let text = text.replace("HASH", HASH_DIGITS);
    match file_of(kind, text.as_bytes()) {
        Err(Refusal::NotALine { line }) => line,
        other => panic!("{text:?} {other:?}"),
    }
}

#[test]
fn uses() {
    let asked = |permission, time: &[u8]| record(6, &[(4, &[permission]), (56, time)]);
    for kind in [TextKind::Request, TextKind::Requests] {
        both_ways(kind, &[asked(0, &[])], "use DuplicateHandle time 0\n");
        let time = [0, 0, 0, 1, 0, 0, 0, 0];
        both_ways(kind, &[asked(4, &time)], "use Sign time 4294967296\n");
        let text = "use UseAsLoaderKey time 18446744073709551615\n";
        both_ways(kind, &[asked(15, &[0xff; 8])], text);
    }
}

#[test]
fn blob_requests() {
    let direct = record(7, &[(4, &HASH), (63, &[7])]);
    let parameters = [0, 1, 2, 64, 0xff, 0xff, 0xff, 0xff];
    let token = record(
        7,
        &[(2, &[0, 1]), (4, &HASH), (24, &HASH), (44, &parameters)],
    );
    let mut hard = token;
    hard[45] = 0;
    let both = [direct, token, hard];
    both_ways(
        TextKind::Requests,
        &both,
        "blob kmhash HASH time 7\n\
         blob kmhash HASH token HASH AllowSoftSlots needed 2 total 64 seconds 4294967295 time 0\n\
         blob kmhash HASH token HASH needed 2 total 64 seconds 4294967295 time 0\n",
    );
    let mut stored = token;
    stored[3] = 0x41;
    let device = record(15, &[(3, &[1]), (4, &[0x80])]);
    both_ways(
        TextKind::Request,
        &[stored, device],
        "blob kmhash HASH token HASH AllowSoftSlots needed 2 total 64 seconds 4294967295 blobfile \
         time 0\nblobfile devices 2147483648\n",
    );
}

#[test]
fn recovery_requests() {
    let plain = record(8, &[(4, &HASH), (24, &[0xff, 0xff]), (63, &[9])]);
    let text = "recovery kahash HASH mechanism 65535 time 9\n";
    both_ways(TextKind::Requests, &[plain], text);
    let mut stored = plain;
    stored[3] = 0x40;
    let device = record(15, &[(3, &[3]), (7, &[4]), (8, &HASH)]);
    both_ways(
        TextKind::Request,
        &[stored, device],
        "recovery kahash HASH mechanism 65535 blobfile time 9\nblobfile devices 4 template HASH\n",
    );
}

#[test]
fn what_is_presented() {
    let sign = record(6, &[(4, &[4])]);
    let certificate = record(9, &[(4, &HASH), (25, &[3])]);
    let delegation = |mask: [u8; 2]| record(14, &[(4, &HASH), (24, &[0; 20]), (44, &mask)]);
    let zeros = "0".repeat(40);
    let all = PERMISSIONS.join(" ");
    both_ways(
        TextKind::Request,
        &[
            sign,
            certificate,
            delegation([0, 0]),
            delegation([0x80, 0x11]),
            delegation([0xff, 0xff]),
        ],
        &format!(
            "use Sign time 0\ncertificate HASH mechanism 3\ndelegation from HASH to {zeros}\n\
             delegation from HASH to {zeros} DuplicateHandle Sign UseAsLoaderKey\n\
             delegation from HASH to {zeros} {all}\n"
        ),
    );
}

#[test]
fn bundles() {
    let mut records = Vec::new();
    let mut text = String::new();
    let facts = "warrantESN stateESN KML HKNSO knsopub hkm hkre kcmsg pubkeydata csr hkra hkmc \
                 hkfips modulekey modulekey";
    for (place, name) in facts.split(' ').enumerate() {
        let field = (place as u8 + 1).min(14);
        records.push(record(10, &[(4, &[field]), (8, &HASH)]));
        text += &format!("fact {name} HASH\n");
    }
    let signatures = "warrant modulestate CertKMaKMCbKNSO CertKMaKMCaKFIPSbKNSO CertKREaKRAbKNSO \
                      keygeneration";
    for (place, name) in signatures.split(' ').enumerate() {
        let good = place % 2;
        records.push(record(11, &[(4, &[place as u8 + 1, good as u8])]));
        text += &format!("signature {name} {}\n", ["bad", "good"][good]);
    }
    records.push(record(12, &[(4, &[0, 1, 0, 1])]));
    text += "policy suite 0 approach 1 protection 1\n";
    both_ways(TextKind::Bundle, &records, &text);
}

#[test]
fn policies() {
    for (bytes, text) in [
        ([5, 2, 1, 4], "suite 5 approach 2 signing protection 4"),
        ([5, 2, 2, 3], "suite 5 approach 2 encryption protection 3"),
        ([6, 1, 4, 2], "suite 6 approach 1 csr protection 2"),
        (
            [255, 2, 7, 1],
            "suite 255 approach 2 signing encryption csr protection 1",
        ),
    ] {
        let policy = record(12, &[(4, &bytes)]);
        both_ways(TextKind::Bundle, &[policy], &format!("policy {text}\n"));
    }
}

#[test]
fn hints() {
    both_ways(TextKind::Hints, &[], "");
    let none = record(13, &[]);
    let many = record(13, &[(4, &[255, 0, 0, 0, 0, 1, 2, 3, 4, 5, 6, 255])]);
    both_ways(
        TextKind::Hints,
        &[none, many],
        "hint group 0 actions 0 0 0 0 0 0 0 0\nhint group 255 actions 0 1 2 3 4 5 6 255\n",
    );
}

#[test]
fn only_the_written_form_of_a_line() {
    for line in [
        "",
        "use",
        "use Sign",
        "use Sign time",
        "use Sign time 01",
        "use Sign time 18446744073709551616",
        "use Sign time 1 ",
        " use Sign time 1",
        "use  Sign time 1",
        "use sign time 1",
        "use Sign Verify time 1",
        "use Sign blobfile time 1",
        "use 4 time 1",
        "Use Sign time 1",
        "use Sign time 1\r",
        "time 1 use Sign",
        "blob time 1",
        "blob HASH time 1",
        "blob kmhash HASH time 1 blobfile",
        "blob kmhash HASH needed 1 total 1 seconds 0 time 1",
        "blob kmhash HASH token HASH time 1",
        "blob kmhash HASH token HASH needed 0 total 1 seconds 0 time 1",
        "blob kmhash HASH token HASH needed 2 total 1 seconds 0 time 1",
        "blob kmhash HASH token HASH needed 1 total 65 seconds 0 time 1",
        "blob kmhash HASH token HASH needed 1 total 1 seconds 4294967296 time 1",
        "blob kmhash HASH token HASH needed 1 total 1 seconds 0 AllowSoftSlots time 1",
        "blob token HASH needed 1 total 1 seconds 0 kmhash HASH time 1",
        "blob kmhash HASH0 time 1",
        "recovery kahash HASH time 1",
        "recovery kahash HASH mechanism 0 time 1",
        "recovery kahash HASH mechanism 65536 time 1",
        "recovery mechanism 1 time 1",
        "recovery kmhash HASH mechanism 1 time 1",
        "recovery kahash HASH mechanism 1 blobfile time 1",
        "certificate HASH mechanism 1",
        "group",
    ] {
        let text = format!("use Sign time 0\n{line}\n");
        assert_eq!(bad_line(TextKind::Requests, &text), 2, "{line:?}");
    }
    for line in [
        "certificate HASH",
        "certificate HASH mechanism 0",
        "certificate HASH mechanism 65536",
        "certificate hash HASH mechanism 1",
        "delegation from HASH",
        "delegation to HASH from HASH",
        "delegation from HASH to HASH Verify Sign",
        "delegation from HASH to HASH Sign Sign",
        "delegation from HASH to HASH ",
        "use Sign time 0",
        "blobfile devices 1",
    ] {
        let text = format!("use Sign time 0\n{line}\n");
        assert_eq!(bad_line(TextKind::Request, &text), 2, "{line:?}");
    }
    let upper = format!("certificate {} mechanism 1", HASH_DIGITS.to_uppercase());
    let text = format!("use Sign time 0\n{upper}\n");
    assert_eq!(bad_line(TextKind::Request, &text), 2);
}

#[test]
fn only_the_written_form_of_a_bundles_or_hints_line() {
    for line in [
        "fact hkm",
        "fact HKM HASH",
        "fact 6 HASH",
        "fact warrantESN HASH",
        "signature warrant",
        "signature warrant Good",
        "signature warrant good good",
        "signature warrant 1",
        "signature warrantESN good",
        "policy suite 1 approach 0 protection 1",
        "policy suite 1 approach 3 protection 1",
        "policy suite 1 approach 2 protection 0",
        "policy suite 1 approach 2 protection 5",
        "policy suite 256 approach 2 protection 1",
        "policy suite 1 approach 2 encryption signing protection 1",
        "policy suite 1 approach 2 csr csr protection 1",
        "policy approach 2 suite 1 protection 1",
        "policy suite 1 approach 2",
    ] {
        let text = format!("fact stateESN HASH\n{line}\n");
        assert_eq!(bad_line(TextKind::Bundle, &text), 2, "{line:?}");
    }
    for line in [
        "hint group 0 actions 0 0 0 0 0 0 0",
        "hint group 0 actions 0 0 0 0 0 0 0 0 0",
        "hint group 256 actions 0 0 0 0 0 0 0 0",
        "hint group 0 actions 0 0 0 0 0 0 0 256",
        "hint group 0 0 0 0 0 0 0 0 0",
        "hint group 00 actions 0 0 0 0 0 0 0 0",
        "hint actions 0 0 0 0 0 0 0 0",
        "policy suite 1 approach 2 protection 1",
    ] {
        let text = format!("hint group 9 actions 0 0 0 0 0 0 0 0\n{line}\n");
        assert_eq!(bad_line(TextKind::Hints, &text), 2, "{line:?}");
    }
}

#[test]
fn a_missing_record_gives_the_next_line() {
    let stored = "recovery kahash HASH mechanism 1 blobfile time 1\n";
    assert_eq!(bad_line(TextKind::Request, ""), 1);
    assert_eq!(bad_line(TextKind::Request, stored), 2);
    assert_eq!(bad_line(TextKind::Requests, stored), 1);
    assert_eq!(bad_line(TextKind::Bundle, ""), 1);
    assert_eq!(bad_line(TextKind::Bundle, "fact hkm HASH\n"), 2);
    for devices in ["devices 0", "devices 3", "template HASH"] {
        let text = format!("{stored}blobfile {devices}\n");
        assert_eq!(bad_line(TextKind::Request, &text), 2, "{devices}");
    }
    let text = format!("{stored}certificate HASH mechanism 1\n");
    assert_eq!(bad_line(TextKind::Request, &text), 2);
}

#[test]
fn an_unfinished_last_line_is_the_bad_line() {
    for (kind, text) in [
        (
            TextKind::Request,
            "recovery kahash HASH mechanism 1 blobfile time 1",
        ),
        (TextKind::Requests, "use Sign time 1"),
        (TextKind::Bundle, "fact hkm HASH"),
        (TextKind::Hints, "hint group 0 actions 0 0 0 0 0 0 0 0"),
    ] {
        assert_eq!(bad_line(kind, text), 1);
    }
}

#[test]
fn one_record_too_many() {
    let sign = "use Sign time 0\n";
    assert!(file_of(TextKind::Requests, sign.repeat(1000).as_bytes()).is_ok());
    assert_eq!(bad_line(TextKind::Requests, &sign.repeat(1001)), 1001);
    assert_eq!(bad_line(TextKind::Requests, &sign.repeat(1003)), 1001);
    let hint = "hint group 0 actions 0 0 0 0 0 0 0 0\n";
    assert!(file_of(TextKind::Hints, hint.repeat(64).as_bytes()).is_ok());
    assert_eq!(bad_line(TextKind::Hints, &hint.repeat(65)), 65);
    let early = format!("{}x\n{}", hint.repeat(3), hint.repeat(65));
    assert_eq!(bad_line(TextKind::Hints, &early), 4);
    let certificate = "certificate HASH mechanism 1\n";
    let delegation = "delegation from HASH to HASH\n";
    let presented = |certificates, delegations| {
        let lines = [
            sign,
            &certificate.repeat(certificates),
            &delegation.repeat(delegations),
        ];
        lines.concat()
    };
    assert_eq!(bad_line(TextKind::Request, &presented(33, 0)), 34);
    assert_eq!(bad_line(TextKind::Request, &presented(32, 17)), 50);
    let mixed = format!("{}{certificate}", presented(1, 1));
    assert_eq!(bad_line(TextKind::Request, &mixed), 4);
}

/// All facts, 32 listed keys, all signatures and the policy are 52 lines.
#[test]
fn the_longest_bundle() {
    let mut text: String = FACTS[..13]
        .iter()
        .map(|name| format!("fact {name} HASH\n"))
        .collect();
    text += &"fact modulekey HASH\n".repeat(32);
    let rest: String = SIGNATURES
        .iter()
        .map(|name| format!("signature {name} good\n"))
        .collect();
    let policy = "policy suite 1 approach 1 protection 4\n";
    let whole = format!("{text}{rest}{policy}");
    let file = file_of(
        TextKind::Bundle,
        whole.replace("HASH", HASH_DIGITS).as_bytes(),
    );
    assert_eq!(file.map(|file| file.len()), Ok(52 * 64));
    assert_eq!(bad_line(TextKind::Bundle, &format!("{whole}{policy}")), 53);
    let one_more = format!("{text}fact modulekey HASH\n{rest}{policy}");
    assert_eq!(bad_line(TextKind::Bundle, &one_more), 46);
}

#[test]
fn a_bad_file_gives_its_own_number() {
    let sign = record(6, &[(4, &[4])]);
    let certificate = record(9, &[(25, &[1])]);
    let stored = record(8, &[(3, &[0x40]), (25, &[1])]);
    let fact = record(10, &[(4, &[14])]);
    let policy = record(12, &[(4, &[9, 1, 0, 1])]);
    let hint = record(13, &[]);
    let archive = record(5, &[(25, &[1])]);
    let (length, malformed) = (Refusal::Length, Refusal::Malformed);
    for (kind, file, refusal) in [
        (
            TextKind::Acl,
            [record(1, &[]), archive].concat(),
            Refusal::OpenArchive,
        ),
        (TextKind::Request, vec![], malformed),
        (TextKind::Request, sign[1..].to_vec(), length),
        (TextKind::Request, sign.repeat(51), length),
        (TextKind::Request, sign.repeat(2), malformed),
        (TextKind::Request, stored.to_vec(), malformed),
        (
            TextKind::Request,
            [vec![sign], vec![certificate; 33]].concat().concat(),
            Refusal::TooMany,
        ),
        (TextKind::Requests, sign.repeat(1001), length),
        (TextKind::Requests, stored.to_vec(), malformed),
        (TextKind::Requests, [sign, certificate].concat(), malformed),
        (TextKind::Bundle, vec![], malformed),
        (TextKind::Bundle, policy.repeat(53), length),
        (TextKind::Bundle, policy.repeat(2), malformed),
        (
            TextKind::Bundle,
            [vec![fact; 33], vec![policy]].concat().concat(),
            Refusal::TooMany,
        ),
        (TextKind::Hints, hint.repeat(65), length),
        (TextKind::Hints, [hint, policy].concat(), malformed),
    ] {
        assert_eq!(text_of(kind, &file), Err(refusal), "{kind:?}");
    }
    assert_eq!(text_of(TextKind::Requests, &[]).as_deref(), Ok(""));
    assert!(text_of(TextKind::Bundle, &policy).is_ok());
    assert!(text_of(TextKind::Hints, &hint.repeat(64)).is_ok());
}

#[test]
fn refusals_leave_the_buffer() {
    let sign = record(6, &[(4, &[4])]);
    let mut buffer = [b'#'; 15];
    for (kind, file, refusal) in [
        (5, &sign[..], Refusal::NoSuchNumber),
        (u64::MAX, &sign[1..], Refusal::NoSuchNumber),
        (1 << 32, &sign, Refusal::NoSuchNumber),
        (0, &sign, Refusal::Malformed),
        (1, &sign, Refusal::ShortBuffer),
        (2, &sign, Refusal::ShortBuffer),
        (3, &sign, Refusal::Malformed),
        (4, &sign[1..], Refusal::Length),
    ] {
        assert_eq!(write_text(kind, file, &mut buffer), Err(refusal));
    }
    let bad = |line| Refusal::NotALine { line };
    for (kind, text, refusal) in [
        (5, "x", Refusal::NoSuchNumber),
        (1, "use Sign time 0\nx\n", bad(2)),
        (1, "use Sign time 0\n", Refusal::ShortBuffer),
        (3, "use Sign time 0\n", bad(1)),
    ] {
        assert_eq!(read_text(kind, text.as_bytes(), &mut buffer), Err(refusal));
    }
    assert_eq!(buffer, [b'#'; 15]);
    let mut exact = [b'#'; 17];
    assert_eq!(write_text(1, &sign, &mut exact), Ok(16));
    assert_eq!(&exact, b"use Sign time 0\n#");
}

/// On made files of every kind, the text reads back to the same bytes.
#[test]
fn every_text_reads_back() {
    let mut maker = Maker::new(31, true);
    for kind in TextKind::ALL {
        let mut good = 0;
        for _ in 0..400 {
            let file = maker.text_file(kind);
            if let Ok(text) = text_of(kind, &file) {
                assert_eq!(file_of(kind, text.as_bytes()), Ok(file));
                good += 1;
            }
        }
        assert!(good > 200, "{kind:?} {good}");
    }
}

/// On made texts of every kind, what is accepted is what would be written.
#[test]
fn every_accepted_text_is_the_written_one() {
    let mut maker = Maker::new(32, true);
    for kind in TextKind::ALL {
        let mut accepted = 0;
        for _ in 0..1500 {
            let text: Bytes = maker.text(kind);
            if let Ok(file) = file_of(kind, &text) {
                let written = text_of(kind, &file).map(String::into_bytes);
                assert_eq!(written, Ok(text));
                accepted += 1;
            }
        }
        assert!(accepted > 300, "{kind:?} {accepted}");
    }
}
