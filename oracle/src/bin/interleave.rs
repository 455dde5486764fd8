//! The program that writes one domain's calls among the others': `interleave SEED DOMAIN COUNT OTHERS`.
//!
//! SEED, DOMAIN and COUNT decide the domain's own calls, OTHERS those of the other three; with 0 they make none.

use std::env;
use std::io::{self, BufWriter};
use std::process::ExitCode;

use oracle::generate::interleave;
use oracle::state::DOMAINS;

/// Writes the script that the arguments ask for to standard output.
fn main() -> ExitCode {
    let words: Option<Vec<u64>> = env::args().skip(1).map(|word| word.parse().ok()).collect();
    let Some(&[seed, domain, count, others]) = words.as_deref() else {
        return usage();
    };
    if domain >= DOMAINS as u64 {
        return usage();
    }
    let out = BufWriter::new(io::stdout().lock());
    match interleave::write_script(seed, domain as usize, count, others, out) {
        Ok(()) => ExitCode::SUCCESS,
        Err(error) => {
            eprintln!("interleave: {error}");
            ExitCode::FAILURE
        }
    }
}

/// Says how it is called.
fn usage() -> ExitCode {
    eprintln!("usage: interleave SEED DOMAIN COUNT OTHERS");
    ExitCode::FAILURE
}
