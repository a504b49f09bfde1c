use super::*;
use crate::call::Bytes;
use crate::desk::STEPS;
use crate::run_script::{answer_script, tally_script};
use crate::script::{read_call, Next, ALL_KINDS};

fn script(seed: u64, calls: u64, kinds: &str) -> Bytes {
    let mut script = Vec::new();
    generate(&mut script, seed, calls, kinds).unwrap();
    script
}

#[test]
fn the_same_seed_gives_the_same_script() {
    assert_eq!(script(9, 100, ALL_KINDS), script(9, 100, ALL_KINDS));
    assert_ne!(script(9, 100, ALL_KINDS), script(10, 100, ALL_KINDS));
}

#[test]
fn a_long_script_is_whole() {
    let script = script(7, 20_000, "RNXDS");
    let mut output = Vec::new();
    answer_script(&mut &script[..], &mut output, "RNXDS").unwrap();
    assert_eq!(output.iter().filter(|byte| **byte == b'\n').count(), 20_000);
}

#[test]
fn only_the_letters_asked_for() {
    for kinds in [
        "F", "L", "C", "R", "N", "X", "D", "S", "W", "T", "V", "U", "f", "l", "c", "r", "n", "x",
        "B", "b", "q", "A", "G", "H", "I", "J", "K", "flcrnx", "flbq", "FLCR", "RN", "KG",
    ] {
        let script = script(5, 60, kinds);
        let mut input = &script[..];
        let mut calls = 0;
        while let Next::Call(_) = read_call(&mut input, kinds).unwrap() {
            calls += 1;
        }
        assert_eq!((calls, input.len()), (60, 0), "{kinds}");
    }
}

#[test]
fn a_seed_divisible_by_16_ends_with_a_stop() {
    for seed in (0..320).step_by(16) {
        for kinds in [ALL_KINDS, "FLCR", "F", "LC", "S", "A", "J", "K", "bq"] {
            let script = script(seed, 3, kinds);
            let mut output = Vec::new();
            answer_script(&mut &script[..], &mut output, kinds).unwrap();
            assert!(output.ends_with(b"\n4 stop\n"), "seed {seed} kinds {kinds}");
        }
    }
}

/// Every answer of document 01 comes up in a short run.
#[test]
fn every_answer_comes_up() {
    let mut tally = Vec::new();
    for seed in 1..=3 {
        let script = script(seed, 8000, ALL_KINDS);
        tally_script(&mut &script[..], &mut tally, ALL_KINDS).unwrap();
    }
    let tally = String::from_utf8(tally).unwrap();
    let has = |answer: &str| {
        assert!(
            tally.lines().any(|line| line.ends_with(answer)),
            "{answer} is missing"
        )
    };
    for letter in ["R", "N", "X"] {
        for number in 1..=7 {
            has(&format!(" {letter} refuse {number}"));
        }
        has(&format!(" {letter} permit"));
        let in_slot = letter.to_ascii_lowercase();
        for number in [1, 2, 4, 5, 6, 7, 12, 13] {
            has(&format!(" {in_slot} refuse {number}"));
        }
        has(&format!(" {in_slot} permit"));
    }
    for answer in [
        "f done",
        "c done",
        "c refuse 10",
        "l done",
        "l refuse 13",
        "n refuse 8",
    ] {
        has(&format!(" {answer}"));
    }
    for letter in ["R", "N", "X", "D", "W"] {
        has(&format!(" {letter} refuse 12"));
    }
    has(" N refuse 8");
    has(" C refuse 10");
    for number in [1, 2, 3, 11] {
        has(&format!(" D refuse {number}"));
    }
    for number in [1, 9, 10, 11] {
        has(&format!(" S refuse {number}"));
    }
    for answer in [
        "W length",
        "W refuse 1",
        "W refuse 2",
        "W refuse 3",
        "W refuse 9",
        "T length",
        "T refuse 9",
        "T refuse 15",
        "V length",
        "V refuse 1",
        "V refuse 2",
        "V refuse 3",
        "V refuse 9",
        "V refuse 10",
        "V refuse 12",
        "U length",
        "U refuse 9",
        "U refuse 10",
        "U refuse 15",
        "B length",
        "B refuse 1",
        "B refuse 2",
        "B refuse 3",
        "B refuse 9",
        "B refuse 12",
        "P form",
        "P refuse 1",
        "P refuse 2",
        "P refuse 3",
        "P refuse 12",
        "Q length",
        "Q refuse 1",
        "Q refuse 2",
        "Q refuse 3",
        "Q refuse 9",
        "Q refuse 12",
        "Q refuse 14",
        "M lengths",
        "M refuse 1",
        "M refuse 2",
        "M refuse 3",
        "M refuse 9",
        "M refuse 11",
        "M refuse 12",
        "K done",
        "b length",
        "b refuse 1",
        "b refuse 2",
        "b refuse 3",
        "b refuse 9",
        "b refuse 12",
        "b refuse 13",
        "q length",
        "q refuse 1",
        "q refuse 2",
        "q refuse 3",
        "q refuse 9",
        "q refuse 12",
        "q refuse 13",
        "q refuse 14",
    ] {
        has(&format!(" {answer}"));
    }
    STEPS
        .iter()
        .for_each(|step| has(&format!(" D fail {step}")));
    let before_acl = STEPS.iter().take_while(|step| **step != "ACLV3");
    before_acl.for_each(|step| has(&format!(" M fail {step}")));
    for protection in 1..=4 {
        has(&format!(
            " D accept 2 protection {protection} recoverable yes"
        ));
        has(&format!(
            " D accept 2 protection {protection} recoverable no"
        ));
    }
    [" D accept 1", " S length", " F done", " L done", " C done"]
        .iter()
        .for_each(|answer| has(answer));
}

/// Every place comes up: each input, each part, each reason, each step with what fails it.
#[test]
fn every_place_comes_up() {
    let mut tally = Vec::new();
    for seed in 1..=2 {
        let script = script(seed, 30_000, "FLCRKAGHIJ");
        tally_script(&mut &script[..], &mut tally, ALL_KINDS).unwrap();
    }
    let tally = String::from_utf8(tally).unwrap();
    let has = |answer: &str| {
        let line_end = format!(" {answer}");
        assert!(
            tally.lines().any(|line| line.ends_with(&line_end)),
            "{answer} is missing"
        )
    };
    for (refusal, part) in [(0, 0), (1, 1), (2, 2), (2, 3), (3, 2), (12, 2), (10, 0)] {
        has(&format!("A place {refusal} part {part}"));
    }
    for (letter, inputs) in [("G", 1..=3), ("H", 1..=5), ("I", 1..=4)] {
        let of_call = |refusal, input, part, reason| {
            has(&format!(
                "{letter} place {refusal} input {input} part {part} reason {reason}"
            ))
        };
        for input in inputs.clone() {
            of_call(1, input, 1, 0);
        }
        for input in inputs.skip(1) {
            of_call(2, input, 2, 0);
            // Hints have neither an end nor a number of their own.
            if input < 5 {
                of_call(2, input, 3, 0);
                of_call(3, input, 2, 0);
            }
            if input == 2 || input == 4 {
                of_call(12, input, 2, 0);
            }
        }
        for refusal in [0, 4, 5, 6] {
            of_call(refusal, 0, 0, 0);
        }
        for reason in [5, 6] {
            of_call(7, 0, 0, reason);
        }
    }
    for reason in 1..=4 {
        has(&format!("H place 8 input 0 part 0 reason {reason}"));
    }
    let of_desk = |refusal, step, input, part, what, number, permission: &str| {
        has(&format!(
            "J place {refusal} step {step} input {input} part {part} what {what} number {number} permission {permission}"
        ))
    };
    of_desk(0, 0, 0, 0, 0, 0, "-");
    for (refusal, input, part) in [
        (1, 6, 1),
        (1, 2, 1),
        (2, 6, 2),
        (2, 6, 3),
        (2, 2, 2),
        (2, 2, 3),
        (3, 6, 2),
        (3, 2, 2),
        (11, 6, 2),
        (12, 2, 2),
    ] {
        of_desk(refusal, 0, input, part, 0, 0, "-");
    }
    for (step, what, number) in [
        (1, 1, 1),
        (1, 2, 1),
        (1, 3, 1),
        (2, 1, 2),
        (2, 2, 2),
        (3, 3, 2),
        (3, 3, 3),
        (4, 4, 2),
        (5, 3, 4),
        (5, 4, 5),
        (6, 4, 6),
        (7, 2, 3),
        (7, 3, 5),
        (7, 3, 6),
        (7, 3, 12),
        (8, 2, 4),
        (8, 3, 5),
        (8, 3, 6),
        (8, 3, 12),
        (8, 3, 13),
        (9, 2, 5),
        (9, 3, 5),
        (9, 3, 7),
        (9, 3, 11),
        (10, 1, 6),
        (10, 2, 6),
        (11, 3, 8),
        (11, 3, 9),
        (11, 4, 8),
        (21, 3, 10),
        (21, 4, 10),
    ] {
        of_desk(0, step, 0, 0, what, number, "-");
    }
    for permission in 4..16 {
        of_desk(0, 12, 0, 0, 0, 0, &permission.to_string());
    }
    for step in 13..=20 {
        of_desk(0, step, 0, 0, 0, 0, "-");
    }
}
