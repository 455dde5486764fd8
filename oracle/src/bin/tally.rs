//! The program that counts answers: `tally LEAST` reads answers, writes how often each kind was given, and fails where
//! a refusal, a reading or a stream's state was given fewer times than that.

use std::env;
use std::io::{self, BufRead};
use std::process::ExitCode;

use oracle::tally::{readings, refusals, states, Tally};

/// Counts the answers on standard input.
fn main() -> ExitCode {
    let words: Vec<String> = env::args().skip(1).collect();
    let [least] = &words[..] else {
        return failure("usage: tally LEAST");
    };
    let Ok(least) = least.parse() else {
        return failure("usage: tally LEAST");
    };
    match count() {
        Ok(tally) => judge(&tally, least),
        Err(error) => failure(&format!("tally: {error}")),
    }
}

/// Counts the lines of standard input.
fn count() -> io::Result<Tally> {
    let mut tally = Tally::default();
    for answer in io::stdin().lock().lines() {
        tally.add(b"", &answer?);
    }
    Ok(tally)
}

/// Writes the counts, and names each refusal, reading and state that was given too seldom.
fn judge(tally: &Tally, least: u64) -> ExitCode {
    let refusals = refusals();
    let kinds = tally.taken_kinds();
    for kind in kinds.into_iter().chain(refusals.iter().map(String::as_str)) {
        println!("{:9}  {kind}", tally.count_all(kind));
    }
    let rare = refusals
        .into_iter()
        .chain(readings())
        .chain(states())
        .filter(|kind| tally.count_all(kind) < least);
    let rare: Vec<String> = rare.collect();
    if rare.is_empty() {
        ExitCode::SUCCESS
    } else {
        failure(&format!("given under {least} times: {}", rare.join(", ")))
    }
}

/// Fails with a message.
fn failure(message: &str) -> ExitCode {
    eprintln!("{message}");
    ExitCode::FAILURE
}
