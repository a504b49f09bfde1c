//! Tests of the ordinary program by itself. That it answers as the second program does is for `bench/measure` to say.

use super::*;

const ACL: &str = "group certifier 000102030405060708090a0b0c0d0e0f10111213 mechanism 3\nlimit counter 7 uses 2\nOpPermissions GetACL Sign\n\
                   MakeBlob AllowNonKm0 kthash a0b1c2d3e4f5061728394a5b6c7d8e9fa0b1c2d3 ktparams AllowSoftSlots needed 2 total 5 seconds 0 blobfile\n\
                   blobfile devices 5\ngroup\nlimit uses 1\nlimit seconds 10\nOpPermissions Sign\n";

fn acl() -> Vec<u8> {
    let mut acl = vec![0; 64 * 20];
    let length = read_listing(ACL.as_bytes(), &mut acl).expect("a listing");
    acl.truncate(length as usize);
    acl
}

fn sign(time: u64) -> Vec<u8> {
    let mut request = vec![0; 64];
    (request[0], request[4]) = (6, 4);
    request[56..].copy_from_slice(&time.to_be_bytes());
    request
}

#[test]
fn a_listing_reads_back_to_the_same_text() {
    let mut text = vec![b'#'; 500];
    let length = write_listing(&acl(), &mut text).expect("a listing") as usize;
    assert_eq!(&text[..length], ACL.as_bytes());
    assert!(text[length..].iter().all(|&b| b == b'#'));
}

#[test]
fn a_bad_line_is_named_and_leaves_the_buffer() {
    let mut buffer = [7; 64];
    for (text, line) in [("group\nlimit uses 01\n", 2), ("group", 1), ("limit uses 1\n", 1), ("group\nMakeBlob blobfile\n", 3), ("\n", 1)] {
        assert_eq!(read_listing(text.as_bytes(), &mut buffer), Err(NotListed::BadLine(line)), "{text}");
    }
    assert_eq!(read_listing(b"group\ngroup\n", &mut buffer), Err(NotListed::Refused(9)));
    assert_eq!(buffer, [7; 64]);
}

#[test]
fn a_group_permits_until_it_is_spent() {
    let (mut ledger, km0, acl) = (Ledger::fresh(), [0; 20], acl());
    ledger.load(100);
    assert_eq!(ledger.request(&km0, &acl, &sign(99)), Reply::Refuse(4, None));
    assert_eq!(ledger.request(&km0, &acl, &sign(105)), Reply::Permit(1));
    assert_eq!(ledger.request(&km0, &acl, &sign(105)), Reply::Refuse(7, Some(1)));
    let mut certified = sign(106);
    certified.extend([9, 0, 0, 0].into_iter().chain(0..20).chain([0, 3]).chain([0; 38]));
    for expected in [Reply::Permit(0), Reply::Permit(0), Reply::Refuse(7, Some(0))] {
        assert_eq!(ledger.request(&km0, &acl, &certified), expected);
    }
    assert_eq!((ledger.counts[..2].to_vec(), ledger.counters[7], ledger.last), (vec![2, 1], 2, 106));
}

#[test]
fn a_run_answers_as_single_requests_do() {
    let (km0, acl) = ([0; 20], acl());
    let (mut one, mut other) = (Ledger::fresh(), Ledger::fresh());
    let times = [120, 105, 104, 105, 130];
    let requests: Vec<u8> = times.iter().flat_map(|&t| sign(t)).collect();
    let (mut answers, form) = ([0; 40], prepare(&acl).expect("an ACL without fault"));
    one.load(100);
    other.load(100);
    assert_eq!(one.prepared_run(&km0, &acl, &[], form, &requests, &mut answers), Ok(5));
    for (request, answer) in requests.chunks(64).zip(answers.chunks(8)) {
        let (number, group) = match other.request(&km0, &acl, request) {
            Reply::Refuse(n, group) => (n, group.unwrap_or(u32::MAX)),
            Reply::Permit(g) => (0, g),
            Reply::Done => unreachable!(),
        };
        assert_eq!(answer, [number.to_be_bytes(), group.to_be_bytes()].concat());
    }
    assert_eq!(one, other);
}
