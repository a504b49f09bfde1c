//! The day program: a line for each request of a file, on one ACL from a load at 0.

use std::fmt::Write as _;

use crate::answer::Answer;
use crate::gate::{check_km0_length, grant};
use crate::ledger::Ledger;
use crate::read_acl::read_acl;
use crate::record::{check_length, Refusal, RECORD_LENGTH};
use crate::request::{read_request, Presented, Request};

/// "0 to 1,000 request records without certificates".
pub const MOST_REQUESTS: usize = 1000;
/// "The day program still takes ACL files up to 53,248 bytes".
const MOST_ACL_RECORDS: usize = 832;

/// What the day program prints.
pub fn day(km0: &[u8], acl: &[u8], requests: &[u8]) -> String {
    lines(km0, acl, requests)
        .unwrap_or_else(|refusal| format!("0 {}\n", Answer::Refuse(refusal).words()))
}

/// A line per request; a fault of a file answers for all of them.
fn lines(km0: &[u8], acl: &[u8], requests: &[u8]) -> Result<String, Refusal> {
    check_km0_length(km0)?;
    check_length(acl, MOST_ACL_RECORDS)?;
    check_length(requests, MOST_REQUESTS)?;
    let acl = read_acl(acl)?;
    let requests = read_requests(requests)?;
    let nothing = Presented::default();
    let mut ledger = Ledger::fresh().loaded(0);
    let mut text = String::new();
    for (place, request) in requests.iter().enumerate() {
        let answer = match grant(&ledger, km0, &acl, request, &nothing) {
            Ok((group, charged)) => {
                ledger = charged;
                Answer::Permit(group)
            }
            Err(refusal) => Answer::Refuse(refusal),
        };
        let _ = writeln!(text, "{} {}", place + 1, answer.words());
    }
    Ok(text)
}

/// One record each: "`0 refuse 2` to a request with flag 6".
pub fn read_requests(file: &[u8]) -> Result<Vec<Request>, Refusal> {
    file.chunks(RECORD_LENGTH)
        .map(|record| Ok(read_request(record, None)?.0))
        .collect()
}

#[cfg(test)]
mod tests {
    use super::*;
    use crate::acl::{Acl, Action, Group, Limit, Sort};
    use crate::encode;
    use crate::request::Asked;

    fn two_sign_groups() -> Vec<u8> {
        let group = |sort, maximum| Group {
            limits: vec![Limit { sort, maximum }],
            actions: vec![Action::OpPermissions(1 << 4)],
            ..Group::default()
        };
        let groups = vec![group(Sort::UsesPerLoad, 1), group(Sort::Counter(3), 2)];
        encode::acl(&Acl { groups })
    }

    fn signs(number: usize) -> Vec<u8> {
        let asked = Asked::Use(4);
        encode::request(
            &Request {
                asked,
                time: 0,
                blobfile: None,
            },
            &Presented::default(),
        )
        .repeat(number)
    }

    #[test]
    fn the_clerks_four_signs() {
        let lines = "1 permit 0\n2 permit 1\n3 permit 1\n4 refuse 7 0\n";
        assert_eq!(day(&[0; 20], &two_sign_groups(), &signs(4)), lines);
        assert_eq!(day(&[0; 20], &two_sign_groups(), &[]), "");
    }

    #[test]
    fn a_bad_file_prints_one_line() {
        let acl = two_sign_groups();
        assert_eq!(day(&[0; 19], &acl, &signs(1)), "0 refuse 1\n");
        assert_eq!(day(&[0; 20], &acl[1..], &signs(1)), "0 refuse 1\n");
        assert_eq!(day(&[0; 20], &[0; 64], &signs(1001)), "0 refuse 1\n");
        assert_eq!(day(&[0; 20], &[0; 64], &signs(1)), "0 refuse 2\n");
        let mut requests = signs(1000);
        requests[999 * 64 + 1] = 1;
        assert_eq!(day(&[0; 20], &acl, &requests), "0 refuse 2\n");
        let certificate = encode::certificate_record(&crate::request::Certificate {
            key: [1; 20],
            mechanism: 1,
        });
        let beside = [signs(1), certificate.to_vec()].concat();
        assert_eq!(day(&[0; 20], &acl, &beside), "0 refuse 2\n");
        let mut stored = [0; 64];
        stored[..4].copy_from_slice(&[8, 0, 0, 1 << 6]);
        stored[25] = 1;
        assert_eq!(day(&[0; 20], &acl, &stored), "0 refuse 2\n");
        stored[3] = 0;
        assert_eq!(day(&[0; 20], &acl, &stored), "1 refuse 5\n");
        let longest = [0; 53_248 + 64];
        assert_eq!(day(&[0; 20], &longest, &[]), "0 refuse 1\n");
        assert_eq!(day(&[0; 20], &longest[64..], &[]), "0 refuse 2\n");
        let four = day(&[0; 20], &[], &signs(1000));
        assert!(four.ends_with("1000 refuse 5\n"));
    }
}
