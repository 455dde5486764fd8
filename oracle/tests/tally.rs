//! The program `tally`: it fails where one refusal, one reading or one state of all was given too seldom.

use std::io::Write;
use std::process::{Command, Stdio};

use oracle::tally::{readings, refusals, states, Tally};

/// Runs `tally 2` on some answers, and gives whether it succeeds and what it writes to standard error.
fn tally(answers: &str) -> (bool, String) {
    let mut child = Command::new(env!("CARGO_BIN_EXE_tally"))
        .arg("2")
        .stdin(Stdio::piped())
        .stdout(Stdio::null())
        .stderr(Stdio::piped())
        .spawn()
        .unwrap();
    let mut input = child.stdin.take().unwrap();
    input.write_all(answers.as_bytes()).unwrap();
    drop(input);
    let output = child.wait_with_output().unwrap();
    let message = String::from_utf8(output.stderr).unwrap();
    (output.status.success(), message)
}

#[test]
fn each_refusal_each_reading_and_each_state_is_asked_for() {
    let refusals = refusals();
    let numbers = (1..=16).chain(19..=38).chain(40..=41);
    for number in numbers.map(|number| format!("refused {number}")) {
        let same = |kind: &&String| **kind == number || kind.starts_with(&format!("{number} "));
        assert!(refusals.iter().any(|kind| same(&kind)), "{number}");
    }
    let kinds = [refusals, readings().to_vec(), states().to_vec()].concat();
    let all = kinds.join("\n") + "\n";
    assert_eq!(tally(&(all.clone() + &all)), (true, String::new()));
    for rare in &kinds {
        let others: Vec<&str> = kinds
            .iter()
            .filter(|kind| *kind != rare)
            .map(String::as_str)
            .collect();
        let (success, message) = tally(&(all.clone() + &others.join("\n")));
        assert!(!success);
        assert_eq!(message, format!("given under 2 times: {rare}\n"));
    }
}

/// An answer's values do not count: all answers that tell the same state are of one kind.
#[test]
fn states_are_told_apart() {
    let mut tally = Tally::default();
    for (line, answer) in [
        ("state 0", "state closed"),
        ("state 1", "state open 0 0"),
        ("state 2", "state open 8 1"),
        ("state 3", "state ended 27 1/1/01 0 0"),
        ("state 4", "state ended 37 0/2/FF 1 2"),
        ("state 5", "state ended 37 0/2/FF 1 2"),
        ("state 6", "state terminated 0 0"),
        ("state 16", "refused 1"),
        ("close 0", "closed 1 0"),
    ] {
        tally.add(line.as_bytes(), answer);
    }
    let counts = states().map(|kind| tally.count("state", &kind));
    assert_eq!(counts, [1, 2, 3, 1]);
    assert_eq!(tally.count("state", "refused 1"), 1);
    assert_eq!(tally.count("close", "closed"), 1);
}
