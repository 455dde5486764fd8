//! What the calls answer.

use std::fmt;

use crate::raw::Words;
use crate::refusal::Refusal;

/// Why a call gave nothing back. It is written with what the refusal says: `refused 5: the stream has ended`.
#[derive(Clone, Copy, Debug, PartialEq, Eq)]
pub enum Error {
    /// The call was refused, by the number of the refusal, and nothing changed; a refused opening leaves an empty device.
    Refused(u8),
    /// The words are no answer of this call, which the library's contract rules out.
    Unexpected(Words),
}

impl Error {
    /// Gives the refusal by its name, or nothing where it is none.
    pub fn refusal(&self) -> Option<Refusal> {
        match self {
            Error::Refused(number) => Refusal::from_number(*number),
            Error::Unexpected(_) => None,
        }
    }
}

impl fmt::Display for Error {
    /// Writes the refusal's number with what it says, or the words.
    fn fmt(&self, out: &mut fmt::Formatter<'_>) -> fmt::Result {
        match self {
            Error::Refused(number) => {
                write!(out, "refused {number}")?;
                said(self.refusal(), out)
            }
            Error::Unexpected(words) => write!(out, "no answer of this call: {words:?}"),
        }
    }
}

/// Writes what a refusal says behind its number.
fn said(refusal: Option<Refusal>, out: &mut fmt::Formatter<'_>) -> fmt::Result {
    match refusal {
        Some(refusal) => write!(out, ": {}", refusal.text()),
        None => Ok(()),
    }
}

impl std::error::Error for Error {}

/// What closing a stream gives: what was left on it.
#[derive(Clone, Copy, Debug, PartialEq, Eq)]
pub struct Closed {
    /// Buffers that were posted and not completed.
    pub buffers: u32,
    /// Read Requests that were not taken.
    pub reads: u32,
}

/// What a stream is, with the buffers and the Read Requests that wait on it; the buffer in fill is one of them.
#[derive(Clone, Copy, Debug, PartialEq, Eq)]
pub enum StreamState {
    /// It is not open.
    Closed,
    /// It is open and takes bytes.
    Open {
        /// Buffers that wait.
        buffers: u32,
        /// Read Requests that wait to be taken.
        reads: u32,
    },
    /// A refusal of the peer's bytes ended it, and it is not yet closed.
    Ended {
        /// The refusal.
        fault: Fault,
        /// Buffers that wait.
        buffers: u32,
        /// Read Requests that wait.
        reads: u32,
    },
    /// The peer's Terminate ended it, and it is not yet closed.
    Terminated {
        /// Buffers that wait.
        buffers: u32,
        /// Read Requests that wait.
        reads: u32,
    },
}

/// A peer's Read Request: bytes of the source, a window of this device's, are to be written to the sink, which is the peer's.
#[derive(Clone, Copy, Debug, PartialEq, Eq)]
pub struct ReadRequest {
    /// The STag of the peer's window.
    pub sink_stag: u32,
    /// The tagged offset in the peer's window.
    pub sink_to: u64,
    /// How many bytes.
    pub size: u32,
    /// The STag of this device's window.
    pub source_stag: u32,
    /// The tagged offset in this device's window.
    pub source_to: u64,
}

/// What a domain's gauge reads as.
#[derive(Clone, Copy, Debug, PartialEq)]
pub enum Reading {
    /// There was no tick yet, or the level is under 1.
    Quiet,
    /// The level.
    Steady(f64),
    /// The level is under half the peak that it has had.
    Falling {
        /// The level.
        level: f64,
        /// The highest level so far.
        peak: f64,
    },
}

/// What receive gives where it is not refused.
#[derive(Clone, Copy, Debug, PartialEq, Eq)]
pub enum Received {
    /// The FPDU is not whole: it has so many bytes in all, 2 where its length is not there yet, and nothing changed.
    Wait(usize),
    /// An FPDU was taken.
    Taken {
        /// The FPDU's length.
        total: usize,
        /// What it reports.
        event: Event,
    },
    /// The peer's bytes were refused, and the stream has ended.
    Ended(Fault),
}

/// What an offer gives where it is not refused; `taken` counts the bytes of this call that need not be offered again.
#[derive(Clone, Copy, Debug, PartialEq, Eq)]
pub enum Offered {
    /// The FPDU is not whole: the stream holds all of the bytes.
    Kept {
        /// How many bytes of this call are held.
        taken: usize,
    },
    /// An FPDU is whole and was taken.
    Taken {
        /// How many bytes of this call it had.
        taken: usize,
        /// The FPDU's length.
        total: usize,
        /// What it reports.
        event: Event,
    },
    /// The peer's bytes were refused, and the stream has ended and holds nothing.
    Ended(Fault),
}

/// What a taken FPDU reports.
#[derive(Clone, Copy, Debug, PartialEq, Eq)]
pub enum Event {
    /// Nothing: a Write, a Send that goes on, or a Read Request, which [`crate::Device::take`] gives.
    None,
    /// A Send is complete.
    Send {
        /// The start of the buffer that it filled, in the store.
        start: u32,
        /// How many bytes it has.
        length: u32,
        /// Its opcode, as [`crate::OPCODE_SEND`] and those beside it.
        opcode: u8,
        /// The STag that it invalidated, whose window is dropped.
        invalidated: Option<u32>,
    },
    /// The peer's Terminate ended the stream.
    Terminate {
        /// The layer at which the peer saw an error.
        layer: u8,
        /// The type of error.
        etype: u8,
        /// The error's code.
        code: u8,
    },
}

/// A refusal of the peer's bytes, which ended the stream: its number, and what a Terminate says of it. It is written with what it
/// says: `refused 27 1/1/01: the Write does not lie inside the window`.
#[derive(Clone, Copy, Debug, PartialEq, Eq)]
pub struct Fault {
    /// The refusal's number.
    pub number: u8,
    /// The layer of a Terminate for it.
    pub layer: u8,
    /// Its error type.
    pub etype: u8,
    /// Its error code.
    pub code: u8,
}

impl Fault {
    /// Gives the refusal by its name, or nothing where it is none.
    pub fn refusal(&self) -> Option<Refusal> {
        Refusal::from_number(self.number)
    }
}

impl fmt::Display for Fault {
    /// Writes the number, layer, type and code, and what the refusal says.
    fn fmt(&self, out: &mut fmt::Formatter<'_>) -> fmt::Result {
        let Fault {
            number,
            layer,
            etype,
            code,
        } = *self;
        write!(out, "refused {number} {layer}/{etype}/{code:02X}")?;
        said(self.refusal(), out)
    }
}

impl std::error::Error for Fault {}

#[cfg(test)]
mod tests {
    use super::*;

    /// A refusal is written with its text, and a number that is none by itself.
    #[test]
    fn refusals_are_written_in_words() {
        let error = Error::Refused(5);
        assert_eq!(error.refusal(), Some(Refusal::StreamEnded));
        assert_eq!(error.to_string(), "refused 5: the stream has ended");
        let none = Error::Refused(17);
        assert_eq!(
            (none.refusal(), none.to_string().as_str()),
            (None, "refused 17")
        );
        assert_eq!(Error::Unexpected([0; 8]).refusal(), None);
        let (number, layer, etype, code) = (37, 0, 2, 0xFF);
        let fault = Fault {
            number,
            layer,
            etype,
            code,
        };
        assert_eq!(fault.refusal(), Some(Refusal::Malformed));
        let text = "the Read Request or the Terminate has a wrong length or no end";
        assert_eq!(fault.to_string(), format!("refused 37 0/2/FF: {text}"));
        assert_eq!(Refusal::Malformed.to_string(), format!("37: {text}"));
    }

    /// Each refusal is found by its number, and no other number is one.
    #[test]
    fn refusals_by_number() {
        let found = (0..=255).filter_map(Refusal::from_number);
        assert!(found.eq(Refusal::ALL));
        for refusal in Refusal::ALL {
            assert_eq!(refusal.is_local(), !(20..40).contains(&refusal.number()));
        }
    }
}
