//! The program that runs a gauge: it reads samples from standard input, one a line, and writes what the gauge reads as.

use std::io::{self, BufWriter};
use std::process::ExitCode;

use oracle::samples;

/// Runs a gauge over standard input.
fn main() -> ExitCode {
    let output = BufWriter::new(io::stdout().lock());
    match samples::run(io::stdin().lock(), output) {
        Ok(()) => ExitCode::SUCCESS,
        Err(error) => {
            eprintln!("gauge: {error}");
            ExitCode::FAILURE
        }
    }
}
