//! The log: a line of plain words for each thing that happens, with the time of day (UTC) before it.

use std::fmt;
use std::io::{self, BufWriter, Write};
use std::time::{SystemTime, UNIX_EPOCH};

/// Where the lines go. They are gathered, and written out by `flush`.
pub struct Log {
    out: BufWriter<Box<dyn Write + Send>>,
}

impl Log {
    /// Gives a log on standard output.
    pub fn to_stdout() -> Self {
        Log {
            out: BufWriter::new(Box::new(io::stdout())),
        }
    }

    /// Gives a log that nobody reads.
    pub fn nowhere() -> Self {
        Log {
            out: BufWriter::new(Box::new(io::sink())),
        }
    }

    /// Writes a line. Where it cannot be written, the program goes on without it.
    pub fn line(&mut self, words: fmt::Arguments<'_>) {
        let _ = writeln!(self.out, "{} {words}", clock());
    }

    /// Writes out what was gathered.
    pub fn flush(&mut self) {
        let _ = self.out.flush();
    }
}

/// Writes a line of log: the log, then a format and its values.
macro_rules! say {
    ($log:expr, $($words:tt)*) => {
        $log.line(format_args!($($words)*))
    };
}
pub(crate) use say;

/// Gives the time of day.
fn clock() -> String {
    let now = SystemTime::now()
        .duration_since(UNIX_EPOCH)
        .unwrap_or_default();
    let seconds = now.as_secs() % 86_400;
    let (hours, minutes, seconds) = (seconds / 3600, seconds / 60 % 60, seconds % 60);
    format!(
        "{hours:02}:{minutes:02}:{seconds:02}.{:03}",
        now.subsec_millis()
    )
}

/// Gives a count with its noun, which gets an s unless the count is one.
pub fn counted(count: u64, noun: &str) -> String {
    match count {
        1 => format!("1 {noun}"),
        _ => format!("{count} {noun}s"),
    }
}
