//! A gauge over samples that are read from a file, one a line.

use std::io::{self, BufRead, Write};

use crate::gauge::Gauge;

/// Reads a sample: digits alone, at least one, of a number of 0 to 2^32 - 1.
pub fn sample(line: &[u8]) -> Option<u32> {
    if line.is_empty() {
        return None;
    }
    line.iter().try_fold(0u32, |value, byte| {
        if !byte.is_ascii_digit() {
            return None;
        }
        value.checked_mul(10)?.checked_add(u32::from(byte - b'0'))
    })
}

/// Writes for each line what the gauge reads as once it has taken the sample, or `bad` where the line is none, which changes
/// nothing. The last line may lack its newline.
pub fn run(mut input: impl BufRead, mut output: impl Write) -> io::Result<()> {
    let mut gauge = Gauge::default();
    let mut line = Vec::new();
    while input.read_until(b'\n', &mut line)? > 0 {
        if line.last() == Some(&b'\n') {
            line.pop();
        }
        match sample(&line) {
            Some(sample) => {
                gauge.take(sample);
                writeln!(output, "{}", gauge.reading())?;
            }
            None => writeln!(output, "bad")?,
        }
        line.clear();
    }
    output.flush()
}
