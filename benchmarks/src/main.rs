//! What the proved receiver costs, side by side with the second program, as tables in Markdown.
//!
//! Nothing here is a test's verdict: the program fails only where the two receivers answer differently. With `count` before
//! them it takes the arguments of `count`.

mod bed;
mod calls;
mod count;
mod crc;
mod growth;
mod measure;
mod messages;
mod nights;
mod offers;
mod placed;
mod receive;
mod receiver;
mod refusals;
mod scene;
mod table;
mod work;

use std::process::ExitCode;

/// Writes every table, or repeats a call to be counted.
fn main() -> ExitCode {
    let words: Vec<String> = std::env::args().skip(1).collect();
    match words.split_first() {
        None => write(),
        Some((mode, words)) if mode == "count" && count::run(words) => (),
        Some(_) => {
            eprintln!("usage: benchmarks [count names | count ours|second CALL OFTEN]");
            return ExitCode::FAILURE;
        }
    }
    ExitCode::SUCCESS
}

/// Writes every table.
fn write() {
    println!(
        "Nanoseconds an operation: the median of {} rounds of at least {} ms, in brackets the quartiles.",
        measure::ROUNDS,
        measure::ROUND.as_millis(),
    );
    println!(
        "Two readings of the clock take {} ns; they stand around every {} Sends, and around a whole round of all else.",
        table::number(measure::clock_cost()),
        scene::FRAMES * scene::SEND_STREAMS,
    );
    crc::write();
    messages::write();
    receive::write();
    offers::write();
    calls::write();
    refusals::write();
    nights::write();
    growth::write();
}
