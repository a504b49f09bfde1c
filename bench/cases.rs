//! What is measured: a call, the files that it is lent, and the answer that it gets.

use crate::inputs::{self, ALL, EXPAND_ACL, REDUCE_ACL, SIGN, SOME};

#[derive(Clone, Copy, PartialEq)]
pub enum Call {
    Load,
    Clear,
    Request,
    Narrow,
    Expand,
    Run,
    PreparedRun,
    /// The ledger is loaded before each run.
    LoadedRun,
    SlotLoad,
    SlotRequest,
    SlotNarrow,
    SlotExpand,
    SlotRun,
    SlotPreparedRun,
    RequestByValue,
    SlotRequestByValue,
    Prepare,
    Verdict,
    Trim,
    Subject,
    WriteListing,
    ReadListing,
}

/// The files of a call; those that it does not take are empty.
#[derive(Default)]
pub struct Files {
    pub km0: Vec<u8>,
    pub acl: Vec<u8>,
    pub req: Vec<u8>,
    pub row: Vec<([u8; 20], u16)>,
    pub new: Vec<u8>,
    pub hints: Vec<u8>,
    pub bundle: Vec<u8>,
    pub text: Vec<u8>,
}

pub struct Case {
    pub name: String,
    pub call: Call,
    pub files: Files,
    /// How the answer begins.
    pub expected: String,
    /// The uses of a call: its cost is divided by this.
    pub uses: usize,
    /// The ratio that the library should reach; every case has the bar of 1.25.
    pub goal: Option<f64>,
}

impl Case {
    fn new(name: &str, call: Call, files: Files, expected: &str) -> Case {
        Case { name: name.to_string(), call, files, expected: expected.to_string(), uses: 1, goal: None }
    }

    // The library is to be no slower here.
    fn to_equal(mut self) -> Case {
        self.goal = Some(1.0);
        self
    }
}

fn counted(groups: u8) -> String {
    format!("{groups} full group{}", if groups == 1 { "" } else { "s" })
}

fn asked(acl: Vec<u8>, req: Vec<u8>) -> Files {
    Files { km0: inputs::km0().to_vec(), acl, req, ..Files::default() }
}

fn replaced(acl: Vec<u8>, req: Vec<u8>, new: Vec<u8>, hints: Vec<u8>) -> Files {
    Files { new, hints, ..asked(acl, req) }
}

fn sign_cases() -> Vec<Case> {
    let (small, full) = (inputs::small_request(SIGN), inputs::full_request(SIGN));
    let chained = || inputs::delegated_request(SIGN);
    let worst = || inputs::delegated_by_last(ALL, SIGN, 32, 16);
    let case = |name: &str, expected: &str, acl, req: &Vec<u8>| Case::new(name, Call::Request, asked(acl, req.clone()), expected);
    vec![
        case("Sign, 1 group", "Permit(0)", inputs::small_acl(), &small),
        case("Sign, 16 full groups, the last permits", "Permit(15)", inputs::granted_last(SOME), &full).to_equal(),
        case("Sign, 64 full groups, the last permits", "Permit(63)", inputs::granted_last(ALL), &full).to_equal(),
        case("Sign, 16 full groups, all spent: 7", "Refuse(7, Some(0))", inputs::all_spent(SOME), &full),
        case("Sign, 64 full groups, all spent: 7", "Refuse(7, Some(0))", inputs::all_spent(ALL), &full),
        case("Sign, 16 full groups, none certified: 6", "Refuse(6, Some(0))", inputs::by_delegation(SOME), &full),
        case("Sign, 16 full groups, the last by four links", "Permit(15)", inputs::by_delegation(SOME), &chained()),
        case("Sign, 64 full groups, the last by four links", "Permit(63)", inputs::by_delegation(ALL), &chained()),
        case("worst request: 64 certifiers", "Permit(63)", inputs::own_certifiers(ALL, SIGN), &worst()),
        case("worst request: 64 mechanisms", "Permit(63)", inputs::own_mechanisms(ALL, SIGN), &chained()),
        case("stored blob, 64 full groups, the last permits", "Permit(63)", inputs::stored_last(), &inputs::stored_request()),
    ]
}

// Sign in a slot, and by value.
fn other_sign_cases() -> Vec<Case> {
    let small = || asked(inputs::small_acl(), inputs::small_request(SIGN));
    let full = |groups| asked(inputs::granted_last(groups), inputs::full_request(SIGN));
    vec![
        Case::new("Sign in a slot, 1 group", Call::SlotRequest, small(), "Permit(0)"),
        Case::new("Sign in a slot, 16 full groups, the last permits", Call::SlotRequest, full(SOME), "Permit(15)").to_equal(),
        Case::new("Sign in a slot, 64 full groups, the last permits", Call::SlotRequest, full(ALL), "Permit(63)").to_equal(),
        Case::new("Sign by value, 1 group", Call::RequestByValue, small(), "Permit(0)"),
        Case::new("Sign by value, 16 full groups, the last permits", Call::RequestByValue, full(SOME), "Permit(15)").to_equal(),
        Case::new("Sign in a slot by value, 1 group", Call::SlotRequestByValue, small(), "Permit(0)"),
        Case::new("load", Call::Load, Files::default(), "Done"),
        Case::new("load of a slot", Call::SlotLoad, Files::default(), "Done"),
        Case::new("clear", Call::Clear, Files::default(), "Done"),
    ]
}

fn narrowing_cases() -> Vec<Case> {
    let (small, full, all) = (inputs::small_acl(), inputs::granted_last(SOME), inputs::granted_last(ALL));
    let (small_req, full_req) = (inputs::small_request(REDUCE_ACL), inputs::full_request(REDUCE_ACL));
    let (some_hints, all_hints) = (inputs::full_hints(SOME), inputs::full_hints(ALL));
    let same = |acl: &Vec<u8>, hints: &Vec<u8>| replaced(acl.clone(), full_req.clone(), acl.clone(), hints.clone());
    let one = || replaced(small.clone(), small_req.clone(), small.clone(), inputs::same_places(1, 1));
    let wider = replaced(full.clone(), full_req.clone(), inputs::widened(&full), some_hints.clone());
    let bad = replaced(inputs::bad_first(all.clone()), full_req.clone(), all.clone(), all_hints.clone());
    let longest = inputs::worst_narrowing_acl();
    let worst = replaced(longest.clone(), inputs::delegated_request(REDUCE_ACL), longest, all_hints.clone());
    vec![
        Case::new("narrowing, 1 group", Call::Narrow, one(), "Permit(0)"),
        Case::new("narrowing, 16 full groups", Call::Narrow, same(&full, &some_hints), "Permit(15)"),
        Case::new("narrowing, 64 full groups", Call::Narrow, same(&all, &all_hints), "Permit(63)"),
        Case::new("narrowing, 16 full groups, wider at the end: 8", Call::Narrow, wider, "Refuse(8, None)"),
        Case::new("narrowing, 64 full groups, the first record is bad: 2", Call::Narrow, bad, "Refuse(2, None)"),
        Case::new("worst narrowing: 1,280 records, 64 mechanisms", Call::Narrow, worst, "Permit(63)"),
        Case::new("narrowing in a slot, 16 full groups", Call::SlotNarrow, same(&full, &some_hints), "Permit(15)"),
    ]
}

fn expansion_cases() -> Vec<Case> {
    let files = |groups| replaced(inputs::expandable(groups), inputs::full_request(EXPAND_ACL), inputs::granted_last(groups), vec![]);
    vec![
        Case::new("expansion, 16 full groups", Call::Expand, files(SOME), "Permit(15)"),
        Case::new("expansion, 64 full groups", Call::Expand, files(ALL), "Permit(63)"),
        Case::new("expansion in a slot, 16 full groups", Call::SlotExpand, files(SOME), "Permit(15)"),
    ]
}

fn desk_cases() -> Vec<Case> {
    let judged = |bundle, acl| Files { bundle, acl, ..Files::default() };
    let full = |groups| judged(inputs::full_bundle(), inputs::full_key(groups));
    let failing = || judged(inputs::bad_warrant(inputs::full_bundle()), inputs::full_key(ALL));
    let (graded, lengths) = ("Policy { protection: 2", "Ok((53248, 4096))");
    vec![
        Case::new("verdict, 2 groups", Call::Verdict, judged(inputs::bundle(1), inputs::small_key()), graded),
        Case::new("verdict, full bundle, 16 full groups", Call::Verdict, full(SOME), graded),
        Case::new("verdict, full bundle, 64 full groups", Call::Verdict, full(ALL), graded),
        Case::new("verdict, full bundle, 64 full groups, WV1 fails", Call::Verdict, failing(), "Failed(\"WV1\")"),
        Case::new("trimming, 2 groups", Call::Trim, judged(inputs::bundle(1), inputs::small_key()), "Ok((384, 128))"),
        Case::new("trimming, full bundle, 64 full groups, all is kept", Call::Trim, full(ALL), lengths),
        Case::new("trimming, 64 groups of stored blobs, all are removed", Call::Trim, judged(inputs::full_bundle(), inputs::stored_last()), "Ok((20480, 4096))"),
        Case::new("trimming, 64 full groups, WV1 fails", Call::Trim, failing(), "Err(Failed(\"WV1\"))"),
        Case::new("subject, certificate 4, suite 4", Call::Subject, Files { text: inputs::four_hashes(), ..Files::default() }, "Ok(137)"),
    ]
}

fn listing_cases() -> Vec<Case> {
    const MEGABYTE: usize = 1 << 20;
    let written = |name: &str, acl: Vec<u8>| Case::new(name, Call::WriteListing, Files { acl, ..Files::default() }, "Ok");
    let read = |name: &str, text: Vec<u8>, expected: &str| Case::new(name, Call::ReadListing, Files { text, ..Files::default() }, expected);
    let mut acl = vec![0; crate::proved::ACL_BYTES];
    let mut of_text = |text: &[u8]| {
        let length = crate::ordinary::read_listing(text, &mut acl).expect("a listing") as usize;
        acl[..length].to_vec()
    };
    let (blobs, permissions) = (inputs::longest_blobs(), inputs::longest_permissions());
    let small = b"group\nOpPermissions ReduceACL Sign\n".to_vec();
    vec![
        written("listing written, 1 group", inputs::small_acl()),
        written("listing written, the longest: stored blobs", of_text(&blobs)),
        written("listing written, all permissions 512 times", of_text(&permissions)),
        read("listing read, 1 group", small, "Ok"),
        read("listing read, the longest: stored blobs", blobs.clone(), "Ok"),
        read("listing read, all permissions 512 times", permissions, "Ok"),
        read("a megabyte without an end of line", vec![b'x'; MEGABYTE], "Err(BadLine(1))"),
        read("a megabyte of digits after `group certifier`", [b"group certifier ".as_slice(), &[b'0'; MEGABYTE]].concat(), "Err(BadLine(1))"),
        read("the longest listing, then a megabyte", [blobs.as_slice(), &[b'x'; MEGABYTE]].concat(), "Err(BadLine(1345))"),
        read("a megabyte of lines `group`", b"group\n".repeat(MEGABYTE / 6), "Err(BadLine(65))"),
    ]
}

/// The requests of a prepared run.
pub const USES: usize = 1_000;

fn run_case(name: String, call: Call, acl: Vec<u8>, row: Vec<([u8; 20], u16)>, request: &[u8], expected: (u32, u32)) -> Case {
    let uses = if matches!(call, Call::Run | Call::SlotRun) { 100 } else { USES };
    let files = Files { row, ..asked(acl, request.repeat(uses)) };
    Case { uses, ..Case::new(&name, call, files, &format!("Ok({uses}) {expected:?}")) }
}

fn prepared_cases() -> Vec<Case> {
    let full = || inputs::row(&inputs::full_request(SIGN));
    let sign = inputs::small_request(SIGN);
    let case = |name: &str, groups, call, acl, row, request: &[u8], expected| {
        run_case(format!("prepared run, {}, {name}", counted(groups)), call, acl, row, request, expected).to_equal()
    };
    let of_groups = |n: u8| {
        let last = u32::from(n) - 1;
        let share = (USES as u32).div_ceil(u32::from(n));
        vec![
            case("the last permits", n, Call::PreparedRun, inputs::opened(inputs::granted_last(n)), vec![], &sign, (0, last)),
            case("the others are spent", n, Call::PreparedRun, inputs::last_unspent(n), vec![], &sign, (0, last)),
            case("all spent: 7", n, Call::PreparedRun, inputs::opened(inputs::all_spent(n)), vec![], &sign, (7, 0)),
            case("row of 32, the last permits", n, Call::PreparedRun, inputs::granted_last(n), full(), &sign, (0, last)),
            case("row of 32, none certified: 6", n, Call::PreparedRun, inputs::by_delegation(n), full(), &sign, (6, 0)),
            case("seconds ran out: 7", n, Call::PreparedRun, inputs::in_first_seconds(n, 5), vec![], &inputs::later(sign.clone(), 5), (7, 0)),
            case("each is used up", n, Call::LoadedRun, inputs::used_up(n, share), vec![], &sign, (0, (USES as u32 - 1) / share)),
        ]
    };
    [1, SOME, ALL].into_iter().flat_map(of_groups).collect()
}

fn run_cases() -> Vec<Case> {
    let sign = inputs::small_request(SIGN);
    let full = || inputs::row(&inputs::full_request(SIGN));
    let run = |name: &str, call, acl, row, request: &[u8], expected| run_case(name.to_string(), call, acl, row, request, expected);
    vec![
        run("run, 1 group", Call::Run, inputs::small_acl(), vec![], &sign, (0, 0)),
        run("run, 16 full groups, row of 32, the last permits", Call::Run, inputs::granted_last(SOME), full(), &sign, (0, 15)),
        run("run in a slot, 16 full groups, row of 32, the last permits", Call::SlotRun, inputs::granted_last(SOME), full(), &sign, (0, 15)),
        run("prepared run in a slot, 16 full groups, row of 32", Call::SlotPreparedRun, inputs::granted_last(SOME), full(), &sign, (0, 15)).to_equal(),
        run("prepared run of blobs, 16 full groups: 5", Call::PreparedRun, inputs::granted_last(SOME), full(), &inputs::blob_request(), (5, u32::MAX)),
        Case::new("prepare, 1 group", Call::Prepare, asked(inputs::small_acl(), vec![]), "Ok"),
        Case::new("prepare, 16 full groups", Call::Prepare, asked(inputs::granted_last(SOME), vec![]), "Ok"),
        Case::new("prepare, 64 full groups", Call::Prepare, asked(inputs::granted_last(ALL), vec![]), "Ok"),
    ]
}

/// All cases.
pub fn all() -> Vec<Case> {
    let cases = [
        sign_cases(), other_sign_cases(), narrowing_cases(), expansion_cases(), desk_cases(), listing_cases(), prepared_cases(), run_cases(),
    ];
    cases.into_iter().flatten().collect()
}

/// A Sign as its files grow, one measure after the other; the others stay at 16 groups, 8 actions, 8 certificates and no delegation.
pub fn growth() -> Vec<Case> {
    let case = |name: String, groups: u8, actions, certificates, delegations| {
        let acl = inputs::growing_acl(groups, actions, certificates, delegations);
        let req = inputs::delegated_by_last(groups, SIGN, certificates, delegations);
        Case::new(&name, Call::Request, asked(acl, req), &format!("Permit({})", groups - 1))
    };
    let groups = [1, 16, 64].map(|n| case(format!("Sign, groups {n}"), n, 8, 8, 0));
    let actions = (1..=8).map(|n| case(format!("Sign, 16 groups, actions {n}"), SOME, n, 8, 0));
    let certificates = [0, 1, 2, 4, 8, 16, 24, 32].map(|n| case(format!("Sign, 16 groups, certificates {n}"), SOME, 8, n, 0));
    let delegations = [0, 1, 2, 4, 8, 12, 16].map(|n| case(format!("Sign, 16 groups, 32 certificates, delegations {n}"), SOME, 8, 32, n));
    groups.into_iter().chain(actions).chain(certificates).chain(delegations).collect()
}
