//! The stack of each function of the library on the longest files. The stack below is filled with one byte, the call is made, and the lowest byte that changed is looked for.

use crate::inputs::{self, ALL, EXPAND_ACL, REDUCE_ACL, SIGN, TIME};
use crate::proved::{self, by_number, by_value, in_place, locate, Cabinet, Certificate, Form, Ledger};

const FILL: u8 = 0xa5;
const REACH: usize = 512 * 1024;
const MARGIN: usize = 4 * 1024;

#[inline(never)]
fn fill(low: usize, high: usize) {
    for at in low..high {
        unsafe { std::ptr::write_volatile(at as *mut u8, FILL) }
    }
}

#[inline(never)]
fn lowest_changed(low: usize, high: usize) -> usize {
    (low..high).find(|&at| unsafe { std::ptr::read_volatile(at as *const u8) } != FILL).unwrap_or(high)
}

/// The bytes of stack that a call takes, its caller's frame included. What is less deep than the margin counts as the margin.
#[inline(never)]
fn depth_here(call: &mut dyn FnMut()) -> usize {
    let mark = std::hint::black_box(0u8);
    let here = &mark as *const u8 as usize;
    let (low, high) = (here - REACH, here - MARGIN);
    fill(low, high);
    call();
    here - lowest_changed(low, high)
}

/// The same, on a thread whose stack has room for what is filled.
fn depth<T>(mut call: impl FnMut() -> T + Send) -> usize {
    let mut silent = move || drop(std::hint::black_box(call()));
    std::thread::scope(|s| {
        let made = std::thread::Builder::new().stack_size(4 * REACH).spawn_scoped(s, move || depth_here(&mut silent));
        made.expect("a thread").join().expect("a depth")
    })
}

// Prints the bytes that a function takes, by its name in the header without the prefix.
fn print<T>(name: &str, call: impl FnMut() -> T + Send) {
    println!("akubolinfe_{name}\t{}", depth(call));
}

// The longest files.
struct Files {
    km0: [u8; 20],
    full: Vec<u8>,
    chained: Vec<u8>,
    sign: Vec<u8>,
    longest: Vec<u8>,
    reduce: Vec<u8>,
    hints: Vec<u8>,
    wide: Vec<u8>,
    expand: Vec<u8>,
    row: Vec<Certificate>,
    records: Vec<u8>,
    form: Form,
}

impl Files {
    fn new() -> Files {
        let (full, sign) = (inputs::granted_last(ALL), inputs::delegated_request(SIGN));
        let certificate = |&(hash, mechanism): &([u8; 20], u16)| Certificate { hash, mechanism };
        Files {
            km0: inputs::km0(),
            chained: inputs::own_mechanisms(ALL, SIGN),
            longest: inputs::worst_narrowing_acl(),
            reduce: inputs::delegated_request(REDUCE_ACL),
            hints: inputs::full_hints(ALL),
            wide: inputs::expandable(ALL),
            expand: inputs::full_request(EXPAND_ACL),
            row: inputs::row(&sign).iter().map(certificate).collect(),
            records: sign[..64].repeat(1_000),
            form: proved::prepare(&full).expect("an ACL without fault"),
            full,
            sign,
        }
    }
}

fn measure_ledger(f: &Files) {
    let (mut l, mut answers) = (Ledger::fresh(), vec![0; 8_000]);
    print("fresh", Ledger::fresh);
    print("load_in_place", || l.load(TIME));
    print("clear_in_place", || l.clear(255));
    print("request_on_tables", || l.request(&f.km0, &f.chained, &f.sign));
    print("request_in_place", || in_place::request(&mut l, &f.km0, &f.chained, &f.sign));
    print("narrow_on_tables", || l.narrow(&f.km0, &f.longest, &f.reduce, &f.longest, &f.hints));
    print("narrow_in_place", || in_place::narrow(&mut l, &f.km0, &f.longest, &f.reduce, &f.longest, &f.hints));
    print("expand_on_tables", || l.expand(&f.km0, &f.wide, &f.expand, &f.full));
    print("expand_in_place", || in_place::expand(&mut l, &f.km0, &f.wide, &f.expand, &f.full));
    print("run_in_place", || l.run(&f.km0, &f.full, &f.row, &f.records[..6_400], &mut answers));
    print("prepared_run_in_place", || l.prepared_run(&f.km0, &f.full, &f.row, f.form, &f.records, &mut answers));
}

fn measure_cabinet(f: &Files) {
    let (mut c, mut answers) = (Cabinet::fresh(), vec![0; 8_000]);
    print("cabinet_fresh", Cabinet::fresh);
    print("cabinet_load_in_place", || c.load(7, TIME));
    print("cabinet_clear_in_place", || c.clear(255));
    print("cabinet_request_in_place", || c.request(7, &f.km0, &f.chained, &f.sign));
    print("cabinet_narrow_in_place", || c.narrow(7, &f.km0, &f.longest, &f.reduce, &f.longest, &f.hints));
    print("cabinet_expand_in_place", || c.expand(7, &f.km0, &f.wide, &f.expand, &f.full));
    print("cabinet_run_in_place", || c.run(7, &f.km0, &f.full, &f.row, &f.records[..6_400], &mut answers));
    print("cabinet_prepared_run_in_place", || c.prepared_run(7, &f.km0, &f.full, &f.row, f.form, &f.records, &mut answers));
}

// By value the caller's copies count too.
fn measure_by_value(f: &Files) {
    let (l, c, mut answers) = (Ledger::loaded(TIME), by_value::cabinet_load(Cabinet::fresh(), 7, TIME).0, vec![0; 8_000]);
    print("load", || by_value::load(l.clone(), TIME));
    print("clear", || by_value::clear(l.clone(), 255));
    print("request", || by_value::request(l.clone(), &f.km0, &f.chained, &f.sign));
    print("narrow", || by_value::narrow(l.clone(), &f.km0, &f.longest, &f.reduce, &f.longest, &f.hints));
    print("expand", || by_value::expand(l.clone(), &f.km0, &f.wide, &f.expand, &f.full));
    print("run", || by_value::run(l.clone(), &f.km0, &f.full, &f.row, &f.records[..6_400], &mut answers));
    print("prepared_run", || by_value::prepared_run(l.clone(), &f.km0, &f.full, &f.row, f.form, &f.records, &mut answers));
    print("cabinet_load", || by_value::cabinet_load(c.clone(), 7, TIME));
    print("cabinet_clear", || by_value::cabinet_clear(c.clone(), 255));
    print("cabinet_request", || by_value::cabinet_request(c.clone(), 7, &f.km0, &f.chained, &f.sign));
    print("cabinet_narrow", || by_value::cabinet_narrow(c.clone(), 7, &f.km0, &f.longest, &f.reduce, &f.longest, &f.hints));
    print("cabinet_expand", || by_value::cabinet_expand(c.clone(), 7, &f.km0, &f.wide, &f.expand, &f.full));
    print("cabinet_run", || by_value::cabinet_run(c.clone(), 7, &f.km0, &f.full, &f.row, &f.records[..6_400], &mut answers));
    print("cabinet_prepared_run", || {
        by_value::cabinet_prepared_run(c.clone(), 7, &f.km0, &f.full, &f.row, f.form, &f.records, &mut answers)
    });
}

fn measure_others(f: &Files) {
    let (bundle, key) = (inputs::full_bundle(), inputs::full_key(ALL));
    let (mut text, mut acl, mut hints) = (vec![0; proved::LISTING_BYTES], vec![0; proved::ACL_BYTES], vec![0; proved::HINT_BYTES]);
    print("abi", proved::abi);
    print("prepare", || proved::prepare(&f.full));
    print("desk", || proved::assess(&bundle, &key));
    print("trim", || proved::trim(&bundle, &key, &mut acl, &mut hints));
    print("subject", || proved::write_subject(4, 4, &inputs::four_hashes(), &mut text));
    let listing = inputs::longest_blobs();
    print("read_listing", || proved::read_listing(&listing, &mut acl));
    print("read_text", || by_number::read_text(0, &listing, &mut acl));
    print("write_listing", || proved::write_listing(&acl, &mut text));
    print("write_text", || by_number::write_text(0, &acl, &mut text));
}

fn measure_places(f: &Files) {
    let (l, bundle, key) = (Ledger::loaded(TIME), inputs::full_bundle(), inputs::full_key(ALL));
    print("locate_file", || by_number::locate_file(0, &f.longest));
    print("locate_request", || locate::request(&l, &f.km0, &f.chained, &f.sign));
    print("locate_narrow", || locate::narrow(&l, &f.km0, &f.longest, &f.reduce, &f.longest, &f.hints));
    print("locate_expand", || locate::expand(&l, &f.km0, &f.wide, &f.expand, &f.full));
    print("locate_verdict", || locate::verdict(&bundle, &key));
}

pub fn measure() {
    let files = Files::new();
    measure_ledger(&files);
    measure_cabinet(&files);
    measure_by_value(&files);
    measure_others(&files);
    measure_places(&files);
}
