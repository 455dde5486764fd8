//! The program: reads a script and writes one line for each command.

use std::env;
use std::fs::File;
use std::io::{self, BufRead, BufReader, BufWriter};
use std::process::ExitCode;

use oracle::script::run;
use oracle::tally::Tally;

/// Runs `oracle [--tally] [FILE]`.
fn main() -> ExitCode {
    let mut arguments: Vec<_> = env::args_os().skip(1).collect();
    let tallied = arguments.first().is_some_and(|word| word == "--tally");
    if tallied {
        arguments.remove(0);
    }
    let result = match arguments.first() {
        Some(name) => File::open(name).and_then(|file| replay(BufReader::new(file), tallied)),
        None => replay(io::stdin().lock(), tallied),
    };
    match result {
        Ok(()) => ExitCode::SUCCESS,
        Err(error) => {
            eprintln!("oracle: {error}");
            ExitCode::FAILURE
        }
    }
}

/// Runs a script to standard output, and its tally to standard error where asked.
fn replay(input: impl BufRead, tallied: bool) -> io::Result<()> {
    let output = BufWriter::new(io::stdout().lock());
    if !tallied {
        return run(input, output, |_, _| ());
    }
    let mut tally = Tally::default();
    run(input, output, |line, answer| tally.add(line, answer))?;
    eprint!("{tally}");
    Ok(())
}
