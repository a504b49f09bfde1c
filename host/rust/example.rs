// Asks the gate for every request record of a day, and the desk for a verdict, from Rust:
//     example KM0 ACL REQUESTS BUNDLE BUNDLE_ACL
mod akubolinfe;

use akubolinfe::{assess, Ledger, Reply, Verdict};
use std::process::ExitCode;

fn print_day(km0: &[u8], acl: &[u8], requests: &[u8]) {
    let mut ledger = Ledger::loaded(0);
    for (k, request) in requests.chunks_exact(64).enumerate() {
        match ledger.request(km0, acl, request) {
            Reply::Done => println!("{} done", k + 1),
            Reply::Permit(group) => println!("{} permit {group}", k + 1),
            Reply::Refuse(number, None) => println!("{} refuse {number}", k + 1),
            Reply::Refuse(number, Some(group)) => println!("{} refuse {number} {group}", k + 1),
        }
    }
}

fn print_verdict(bundle: &[u8], acl: &[u8]) {
    match assess(bundle, acl) {
        Verdict::Generation => println!("accepted: approach 1, protection 0, recoverable 0"),
        Verdict::Policy { protection, recoverable } => {
            println!("accepted: approach 2, protection {protection}, recoverable {}", u8::from(recoverable))
        }
        Verdict::Failed(step) => println!("failed step {step}"),
        Verdict::Refused(number) => println!("refused {number}"),
    }
}

fn main() -> ExitCode {
    let names: Vec<String> = std::env::args().skip(1).collect();
    if names.len() != 5 {
        eprintln!("usage: example KM0 ACL REQUESTS BUNDLE BUNDLE_ACL");
        return ExitCode::FAILURE;
    }
    let mut files = Vec::new();
    for name in &names {
        match std::fs::read(name) {
            Ok(bytes) => files.push(bytes),
            Err(why) => {
                eprintln!("{name}: {why}");
                return ExitCode::FAILURE;
            }
        }
    }
    print_day(&files[0], &files[1], &files[2]);
    print_verdict(&files[3], &files[4]);
    ExitCode::SUCCESS
}
