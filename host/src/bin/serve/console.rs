//! Lines that are typed on standard input.

use std::fs::File;
use std::io::{self, Read};
use std::os::fd::{AsFd, BorrowedFd};

/// The longest line that is kept; what is longer is no command.
const LONGEST: usize = 64;

/// What a line asks for.
#[derive(Debug, PartialEq, Eq)]
pub enum Asked {
    Status,
    Quit,
    /// Something else, its front.
    Other(String),
    /// There are no more lines.
    End,
}

/// Standard input, read as it comes.
pub struct Console {
    file: File,
    line: Vec<u8>,
}

impl Console {
    /// Gives standard input.
    pub fn open() -> io::Result<Self> {
        let file = io::stdin().as_fd().try_clone_to_owned()?;
        Ok(Console {
            file: File::from(file),
            line: Vec::new(),
        })
    }

    /// Gives the file to wait for.
    pub fn as_fd(&self) -> BorrowedFd<'_> {
        self.file.as_fd()
    }

    /// Reads what has come, once, and gives the lines that are whole.
    pub fn read(&mut self) -> Vec<Asked> {
        let mut bytes = [0; 1024];
        match self.file.read(&mut bytes) {
            Ok(0) => vec![Asked::End],
            Ok(count) => lines(&mut self.line, &bytes[..count]),
            Err(error) if error.kind() == io::ErrorKind::Interrupted => Vec::new(),
            Err(error) if error.kind() == io::ErrorKind::WouldBlock => Vec::new(),
            Err(_) => vec![Asked::End],
        }
    }
}

/// Gives the lines that bytes complete, and keeps the front of the one that they begin.
fn lines(line: &mut Vec<u8>, bytes: &[u8]) -> Vec<Asked> {
    let mut asked = Vec::new();
    for &byte in bytes {
        if byte == b'\n' {
            let text = String::from_utf8_lossy(line).trim().to_string();
            line.clear();
            match text.as_str() {
                "" => (),
                "status" => asked.push(Asked::Status),
                "quit" => asked.push(Asked::Quit),
                _ => asked.push(Asked::Other(text)),
            }
        } else if line.len() < LONGEST {
            line.push(byte);
        }
    }
    asked
}

#[cfg(test)]
mod tests {
    use super::*;

    /// Lines come out whole however they are cut, and a line without end is not kept.
    #[test]
    fn cut_lines() {
        let mut line = Vec::new();
        assert_eq!(lines(&mut line, b"sta"), []);
        assert_eq!(lines(&mut line, b"tus\n\nqu"), [Asked::Status]);
        assert_eq!(lines(&mut line, b"it\r\n"), [Asked::Quit]);
        assert_eq!(lines(&mut line, &[b'x'; 100_000]), []);
        assert_eq!(line.len(), LONGEST);
        let other = Asked::Other("x".repeat(LONGEST));
        assert_eq!(lines(&mut line, b"\n"), [other]);
    }
}
