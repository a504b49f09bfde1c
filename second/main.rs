//! A second program for the permission gate, the attestation desk, the subject writer and what came
//! with the requests, written from the papers alone, so that its answers can be compared with those
//! of the proved program. See README.md.

mod account;
mod acl;
mod answer;
mod batch;
mod blobfile;
mod bundle;
mod cabinet;
mod call;
mod certify;
mod damage;
mod day;
mod desk;
mod edge_acl;
mod edge_files;
mod edge_request;
mod encode;
mod ends;
#[cfg(fuzzing)]
#[path = "../checks/fuzz.rs"]
mod fuzz;
mod gate;
mod generate;
mod grade;
mod host_calls;
mod ledger;
mod listing;
mod locate_call;
mod locate_verdict;
mod make_acl;
mod make_blobfile;
mod make_breach;
mod make_case;
mod make_desk;
mod make_fault;
mod make_history;
mod make_listing;
mod make_narrowing;
mod make_place;
mod make_presented;
mod make_request;
mod make_run;
mod make_subject;
mod make_text;
mod make_wider;
mod maker;
mod place;
mod prepare;
mod properties;
mod random;
mod read_acl;
mod read_file;
mod read_listing;
mod read_text;
mod record;
mod replace;
mod request;
mod run_script;
mod script;
mod subject;
mod text;
mod trim;

use std::io::{self, BufReader, BufWriter};
use std::process::ExitCode;

use script::ALL_KINDS;

const USAGE: &str = "usage: second answer [KINDS] < SCRIPT\n\
                     \u{20}      second tally [KINDS] < SCRIPT\n\
                     \u{20}      second generate SEED CALLS [KINDS] > SCRIPT\n\
                     \u{20}      second day KM0 ACL REQUESTS\n\
                     \u{20}      second properties SEED COUNT";

fn main() -> ExitCode {
    let arguments: Vec<String> = std::env::args().skip(1).collect();
    let words: Vec<&str> = arguments.iter().map(String::as_str).collect();
    match run(&words) {
        Ok(()) => ExitCode::SUCCESS,
        Err(message) => {
            eprintln!("{message}");
            ExitCode::FAILURE
        }
    }
}

fn run(words: &[&str]) -> Result<(), String> {
    match words {
        ["day", km0, acl, requests] => {
            print!("{}", day::day(&read(km0)?, &read(acl)?, &read(requests)?));
            Ok(())
        }
        ["properties", seed, count] => {
            properties::properties(&mut io::stdout().lock(), number(seed)?, number(count)?)
                .map_err(|error| format!("properties: {error}"))?
        }
        _ => run_on_script(words),
    }
}

fn run_on_script(words: &[&str]) -> Result<(), String> {
    let (command, numbers, kinds) = match words {
        [command @ ("answer" | "tally")] => (*command, None, ALL_KINDS),
        [command @ ("answer" | "tally"), kinds] => (*command, None, *kinds),
        ["generate", seed, calls] => ("generate", Some((*seed, *calls)), ALL_KINDS),
        ["generate", seed, calls, kinds] => ("generate", Some((*seed, *calls)), *kinds),
        _ => return Err(USAGE.to_string()),
    };
    let is_known = |letter| call::Call::blank(letter).is_some();
    if kinds.is_empty() || !kinds.bytes().all(is_known) {
        return Err(format!(
            "KINDS is letters of calls, such as {ALL_KINDS}, not {kinds:?}"
        ));
    }
    let mut input = BufReader::with_capacity(1 << 16, io::stdin().lock());
    let mut output = BufWriter::with_capacity(1 << 16, io::stdout().lock());
    let outcome = match numbers {
        Some((seed, calls)) => {
            generate::generate(&mut output, number(seed)?, number(calls)?, kinds)
        }
        None if command == "answer" => run_script::answer_script(&mut input, &mut output, kinds),
        None => run_script::tally_script(&mut input, &mut output, kinds),
    };
    outcome.map_err(|error| format!("{command}: {error}"))
}

fn read(name: &str) -> Result<Vec<u8>, String> {
    std::fs::read(name).map_err(|error| format!("{name}: {error}"))
}

fn number(word: &str) -> Result<u64, String> {
    word.parse().map_err(|_| format!("not a number: {word}"))
}
