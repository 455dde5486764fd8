//! An answer's words, read as what the call made answers.

use crate::answer::StreamState;
use crate::answer::{Closed, Error, Event, Fault, Offered, ReadRequest, Reading, Received};
use crate::raw::{kind, stream, Words};

/// Gives what a reader finds in the words, or the refusal or the words where it finds nothing.
#[inline]
fn read<T>(words: &Words, reader: fn(&Words) -> Option<T>) -> Result<T, Error> {
    let refused = || match *words {
        [kind::REFUSED, number, 0, 0, 0, 0, 0, 0] => field(number).map(Error::Refused),
        _ => None,
    };
    reader(words).ok_or_else(|| refused().unwrap_or(Error::Unexpected(*words)))
}

/// Gives a word as its field's type, or nothing where it does not fit.
#[inline]
fn field<T: TryFrom<u64>>(word: u64) -> Option<T> {
    T::try_from(word).ok()
}

/// Reads the answer of a call that gives nothing back.
#[inline]
pub(crate) fn done(words: &Words) -> Result<(), Error> {
    read(words, |words| match *words {
        [kind::DONE, 0, 0, 0, 0, 0, 0, 0] => Some(()),
        _ => None,
    })
}

/// Reads the answer of closing a stream.
#[inline]
pub(crate) fn closed(words: &Words) -> Result<Closed, Error> {
    read(words, |words| match *words {
        [kind::CLOSED, buffers, reads, 0, 0, 0, 0, 0] => Some(Closed {
            buffers: field(buffers)?,
            reads: field(reads)?,
        }),
        _ => None,
    })
}

/// Reads the answer of taking a read.
#[inline]
pub(crate) fn read_request(words: &Words) -> Result<ReadRequest, Error> {
    read(words, |words| match *words {
        [kind::READ, sink_stag, sink_to, size, source_stag, source_to, 0, 0] => Some(ReadRequest {
            sink_stag: field(sink_stag)?,
            sink_to,
            size: field(size)?,
            source_stag: field(source_stag)?,
            source_to,
        }),
        _ => None,
    })
}

/// Reads the answer of a question.
#[inline]
pub(crate) fn counted(words: &Words) -> Result<u32, Error> {
    read(words, |words| match *words {
        [kind::COUNTED, count, 0, 0, 0, 0, 0, 0] => field(count),
        _ => None,
    })
}

/// Reads the answer of asking for a reading, whose floats are their bits.
#[inline]
pub(crate) fn reading(words: &Words) -> Result<Reading, Error> {
    read(words, |words| match *words {
        [kind::QUIET, 0, 0, 0, 0, 0, 0, 0] => Some(Reading::Quiet),
        [kind::STEADY, level, 0, 0, 0, 0, 0, 0] => Some(Reading::Steady(f64::from_bits(level))),
        [kind::FALLING, level, peak, 0, 0, 0, 0, 0] => Some(Reading::Falling {
            level: f64::from_bits(level),
            peak: f64::from_bits(peak),
        }),
        _ => None,
    })
}

/// Reads the answer of asking for a stream's state.
#[inline]
pub(crate) fn stated(words: &Words) -> Result<StreamState, Error> {
    read(words, |words| {
        let [kind::STATED, state, buffers, reads, number, layer, etype, code] = *words else {
            return None;
        };
        let (buffers, reads) = (field(buffers)?, field(reads)?);
        match (state, [number, layer, etype, code]) {
            (stream::CLOSED, [0, 0, 0, 0]) if (buffers, reads) == (0, 0) => {
                Some(StreamState::Closed)
            }
            (stream::OPEN, [0, 0, 0, 0]) => Some(StreamState::Open { buffers, reads }),
            (stream::TERMINATED, [0, 0, 0, 0]) => Some(StreamState::Terminated { buffers, reads }),
            (stream::ENDED, _) => {
                let fault = fault(&[kind::ENDED, number, layer, etype, code, 0, 0, 0])?;
                Some(StreamState::Ended {
                    fault,
                    buffers,
                    reads,
                })
            }
            _ => None,
        }
    })
}

/// Reads the answer of receive.
#[inline]
pub(crate) fn received(words: &Words) -> Result<Received, Error> {
    read(words, |words| match *words {
        [kind::WAIT, total, 0, 0, 0, 0, 0, 0] => Some(Received::Wait(field(total)?)),
        [kind::ENDED, ..] => Some(Received::Ended(fault(words)?)),
        [_, total, ..] => Some(Received::Taken {
            total: field(total)?,
            event: event(words)?,
        }),
    })
}

/// Reads the answer of an offer, whose events are receive's with a word more: how many bytes were taken.
#[inline]
pub(crate) fn offered(words: &Words) -> Result<Offered, Error> {
    read(words, |words| match *words {
        [kind::ENDED, ..] => Some(Offered::Ended(fault(words)?)),
        [kind::KEPT, 0, 0, 0, 0, 0, taken, 0] => Some(Offered::Kept {
            taken: field(taken)?,
        }),
        [kind, total, a, b, c, d, taken, last] => Some(Offered::Taken {
            taken: field(taken)?,
            total: field(total)?,
            event: event(&[kind, total, a, b, c, d, 0, last])?,
        }),
    })
}

/// Reads a refusal of the peer's bytes.
#[inline]
fn fault(words: &Words) -> Option<Fault> {
    match *words {
        [kind::ENDED, number, layer, etype, code, 0, 0, 0] => Some(Fault {
            number: field(number)?,
            layer: field(layer)?,
            etype: field(etype)?,
            code: field(code)?,
        }),
        _ => None,
    }
}

/// Reads what a taken FPDU reports.
#[inline]
fn event(words: &Words) -> Option<Event> {
    match *words {
        [kind::TAKEN, _, 0, 0, 0, 0, 0, 0] => Some(Event::None),
        [kind::SENT, _, start, length, opcode, 0, 0, 0] => sent(start, length, opcode, None),
        [kind::SENT_INVALIDATING, _, start, length, opcode, stag, 0, 0] => {
            sent(start, length, opcode, Some(field(stag)?))
        }
        [kind::TERMINATED, _, layer, etype, code, 0, 0, 0] => Some(Event::Terminate {
            layer: field(layer)?,
            etype: field(etype)?,
            code: field(code)?,
        }),
        _ => None,
    }
}

/// Gives the event of a complete Send.
#[inline]
fn sent(start: u64, length: u64, opcode: u64, invalidated: Option<u32>) -> Option<Event> {
    Some(Event::Send {
        start: field(start)?,
        length: field(length)?,
        opcode: field(opcode)?,
        invalidated,
    })
}

#[cfg(test)]
mod tests {
    use super::*;

    /// Words of an unknown kind, with a value too large for its field or with a word too many are no answer.
    #[test]
    fn words_that_are_no_answer() {
        let large = 1 << 40;
        for words in [
            [15, 0, 0, 0, 0, 0, 0, 0],
            [kind::QUIET, 0, 0, 0, 0, 0, 0, 0],
            [kind::KEPT, 0, 0, 0, 0, 0, 0, 0],
            [u64::MAX; 8],
            [kind::TAKEN, 20, 1, 0, 0, 0, 0, 0],
            [kind::TAKEN, 20, 0, 0, 0, 0, 20, 0],
            [kind::SENT, 32, large, 5, 3, 0, 0, 0],
            [kind::ENDED, large, 1, 1, 1, 0, 0, 0],
            [kind::DONE, 0, 0, 0, 0, 0, 0, 0],
            [kind::REFUSED, 256, 0, 0, 0, 0, 0, 0],
        ] {
            assert_eq!(received(&words), Err(Error::Unexpected(words)));
        }
        let waits = [kind::WAIT, 2, 0, 0, 0, 0, 0, 0];
        assert_eq!(done(&waits), Err(Error::Unexpected(waits)));
        let refused = [kind::REFUSED, 9, 0, 0, 0, 0, 0, 0];
        assert_eq!(closed(&refused), Err(Error::Refused(9)));
    }

    /// The same of a reading.
    #[test]
    fn words_that_are_no_reading() {
        let eight = 8f64.to_bits();
        for words in [
            [15, 0, 0, 0, 0, 0, 0, 0],
            [kind::QUIET, eight, 0, 0, 0, 0, 0, 0],
            [kind::STEADY, eight, eight, 0, 0, 0, 0, 0],
            [kind::FALLING, eight, eight, eight, 0, 0, 0, 0],
            [kind::COUNTED, 8, 0, 0, 0, 0, 0, 0],
        ] {
            assert_eq!(reading(&words), Err(Error::Unexpected(words)));
        }
        let steady = [kind::STEADY, eight, 0, 0, 0, 0, 0, 0];
        assert_eq!(reading(&steady), Ok(Reading::Steady(8.0)));
        let falling = [kind::FALLING, eight, 20f64.to_bits(), 0, 0, 0, 0, 0];
        let (level, peak) = (8.0, 20.0);
        assert_eq!(reading(&falling), Ok(Reading::Falling { level, peak }));
    }

    /// The same of a stream's state.
    #[test]
    fn words_that_are_no_state() {
        let large = 1 << 40;
        for words in [
            [kind::COUNTED, 0, 0, 0, 0, 0, 0, 0],
            [kind::STATED, 4, 0, 0, 0, 0, 0, 0],
            [kind::STATED, stream::CLOSED, 1, 0, 0, 0, 0, 0],
            [kind::STATED, stream::CLOSED, 0, 0, 0, 0, 0, 1],
            [kind::STATED, stream::OPEN, large, 0, 0, 0, 0, 0],
            [kind::STATED, stream::OPEN, 1, 1, 27, 0, 0, 0],
            [kind::STATED, stream::ENDED, 1, 1, 27, 1, 1, 256],
            [kind::STATED, stream::TERMINATED, 1, 1, 0, 1, 0, 0],
        ] {
            assert_eq!(stated(&words), Err(Error::Unexpected(words)));
        }
        let open = [kind::STATED, stream::OPEN, 2, 3, 0, 0, 0, 0];
        let (buffers, reads) = (2, 3);
        assert_eq!(stated(&open), Ok(StreamState::Open { buffers, reads }));
    }

    /// The same of an offer, which has no Wait.
    #[test]
    fn words_that_are_no_answer_of_an_offer() {
        let large = 1 << 40;
        for words in [
            [15, 0, 0, 0, 0, 0, 0, 0],
            [kind::QUIET, 0, 0, 0, 0, 0, 0, 0],
            [u64::MAX; 8],
            [kind::WAIT, 20, 0, 0, 0, 0, 0, 0],
            [kind::KEPT, 1, 0, 0, 0, 0, 1, 0],
            [kind::KEPT, 0, 0, 0, 0, 0, 1, 1],
            [kind::TAKEN, 20, 1, 0, 0, 0, 20, 0],
            [kind::TAKEN, 20, 0, 0, 0, 0, 20, 1],
            [kind::SENT, 32, large, 5, 3, 0, 32, 0],
            [kind::ENDED, 20, 1, 1, 1, 0, 1, 0],
            [kind::REFUSED, 5, 0, 0, 0, 0, 1, 0],
        ] {
            assert_eq!(offered(&words), Err(Error::Unexpected(words)));
        }
        let kept = [kind::KEPT, 0, 0, 0, 0, 0, 3, 0];
        assert_eq!(offered(&kept), Ok(Offered::Kept { taken: 3 }));
        let refused = [kind::REFUSED, 2, 0, 0, 0, 0, 0, 0];
        assert_eq!(offered(&refused), Err(Error::Refused(2)));
    }
}
