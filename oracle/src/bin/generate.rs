//! The program that writes random scripts, and files of samples for a gauge: `generate frames|nights|messages|samples SEED
//! COUNT`.

use std::env;
use std::io::{self, BufWriter};
use std::process::ExitCode;

use oracle::generate::{frames, messages, nights, samples};

/// Writes the script or the file that the arguments ask for to standard output.
fn main() -> ExitCode {
    let words: Vec<String> = env::args().skip(1).collect();
    let Some((mode, seed, count)) = arguments(&words) else {
        eprintln!("usage: generate frames|nights|messages|samples SEED COUNT");
        return ExitCode::FAILURE;
    };
    let out = BufWriter::new(io::stdout().lock());
    let result = match mode {
        "frames" => frames::write_script(seed, count, out),
        "messages" => messages::write_script(seed, count, out),
        "samples" => samples::write_file(seed, count, out),
        _ => nights::write_script(seed, count, out),
    };
    match result {
        Ok(()) => ExitCode::SUCCESS,
        Err(error) => {
            eprintln!("generate: {error}");
            ExitCode::FAILURE
        }
    }
}

/// Reads the mode, the seed and the count.
fn arguments(words: &[String]) -> Option<(&str, u64, u64)> {
    let [mode, seed, count] = words else {
        return None;
    };
    let known = ["frames", "nights", "messages", "samples"].contains(&mode.as_str());
    known.then_some(())?;
    Some((mode, seed.parse().ok()?, count.parse().ok()?))
}
