//! Messages that a program sends: each is begun, asked for its segments, and each segment framed.

use crate::answer::Error;
use crate::raw::{self, kind, written, FpduWords, RnicMessage, Written};

/// A Write or a Send under way, without its bytes, which are lent for each segment. A segment is a ULPDU, which
/// [`write_fpdu`] frames.
#[derive(Clone, Debug, PartialEq, Eq)]
pub struct Message {
    state: RnicMessage,
}

impl Message {
    /// Begins a Write of `length` bytes to an STag and a tagged offset, in segments of at most `limit` bytes.
    pub fn write(limit: u64, stag: u64, to: u64, length: u64) -> Result<Self, Error> {
        let mut state = RnicMessage { words: [0; 9] };
        // SAFETY: the pointer is that of a value held for the call; the others are numbers.
        let refusal = unsafe { raw::rnic_c_message_write(&mut state, limit, stag, to, length) };
        begun(state, refusal)
    }

    /// Begins a Send of `length` bytes by its opcode and number, in segments of at most `limit` bytes; `stag` is the one
    /// that an opcode with Invalidate invalidates, and nothing else.
    pub fn send(limit: u64, opcode: u64, msn: u64, stag: u64, length: u64) -> Result<Self, Error> {
        let mut state = RnicMessage { words: [0; 9] };
        // SAFETY: as in `write`.
        let refusal =
            unsafe { raw::rnic_c_message_send(&mut state, limit, opcode, msn, stag, length) };
        begun(state, refusal)
    }

    /// Writes the next segment at the front of `out`, lent all of the message's bytes, and gives its length; nothing
    /// after the last. Refused, `out` is as it was, and the segment stays next.
    #[inline]
    pub fn next(&mut self, bytes: &[u8], out: &mut [u8]) -> Result<Option<usize>, Error> {
        let mut answer: Written = [0; 2];
        // SAFETY: each pointer is that of a reference held for the call, with its slice's own length; the state, the
        // output and the answer are borrowed for writing, so none of the four overlaps another.
        unsafe {
            raw::rnic_c_message_next(
                &mut self.state,
                bytes.as_ptr(),
                bytes.len(),
                out.as_mut_ptr(),
                out.len(),
                &mut answer,
            );
        }
        match answer {
            [written::NO_MORE, 0] => Ok(None),
            _ => length(answer).map(Some),
        }
    }
}

/// Writes the FPDU of a ULPDU, with its CRC, at the front of `out` and gives its length.
#[inline]
pub fn write_fpdu(ulpdu: &[u8], out: &mut [u8]) -> Result<usize, Error> {
    let mut answer: Written = [0; 2];
    // SAFETY: as in `Message::next`.
    unsafe {
        raw::rnic_c_fpdu_write(
            ulpdu.as_ptr(),
            ulpdu.len(),
            out.as_mut_ptr(),
            out.len(),
            &mut answer,
        );
    }
    length(answer)
}

/// What the first FPDU of some bytes is.
#[derive(Clone, Copy, Debug, PartialEq, Eq)]
pub enum FpduRead<'a> {
    /// It is not whole: so many bytes are needed.
    Wait(usize),
    /// It is whole.
    Taken {
        /// The length of the whole FPDU.
        total: usize,
        /// The ULPDU in it.
        ulpdu: &'a [u8],
    },
}

/// Reads the first FPDU of some bytes, and checks its CRC where that is on. Refused: 20 for a ULPDU over 8,192 bytes, 21 for a wrong
/// CRC.
#[inline]
pub fn read_fpdu(crc: bool, bytes: &[u8]) -> Result<FpduRead<'_>, Error> {
    let mut answer: FpduWords = [0; 4];
    // SAFETY: the pointers are those of slices and values that are held for the call, with their lengths.
    unsafe {
        raw::rnic_c_fpdu_read(u64::from(crc), bytes.as_ptr(), bytes.len(), &mut answer);
    }
    let unexpected = Error::Unexpected([answer[0], answer[1], answer[2], answer[3], 0, 0, 0, 0]);
    match answer {
        [kind::WAIT, total, 0, 0] => Ok(FpduRead::Wait(total as usize)),
        [kind::TAKEN, total, start, length] => {
            let ulpdu = bytes.get(start as usize..start.saturating_add(length) as usize);
            let total = total as usize;
            ulpdu.map_or(Err(unexpected), |ulpdu| {
                Ok(FpduRead::Taken { total, ulpdu })
            })
        }
        [kind::REFUSED, number, 0, 0] => Err(refused(number).unwrap_or(unexpected)),
        _ => Err(unexpected),
    }
}

/// Gives a message that was begun, or the refusal.
fn begun(state: RnicMessage, refusal: u32) -> Result<Message, Error> {
    accepted(refusal).map(|()| Message { state })
}

/// Gives nothing where a refusal's number is 0, or the refusal.
pub(crate) fn accepted(refusal: u32) -> Result<(), Error> {
    let number = u64::from(refusal);
    match refusal {
        0 => Ok(()),
        _ => Err(refused(number).unwrap_or(Error::Unexpected([number, 0, 0, 0, 0, 0, 0, 0]))),
    }
}

/// Gives the length that was written, or the refusal.
#[inline]
pub(crate) fn length([kind, number]: Written) -> Result<usize, Error> {
    let unexpected = Error::Unexpected([kind, number, 0, 0, 0, 0, 0, 0]);
    match kind {
        written::WROTE => usize::try_from(number).map_err(|_| unexpected),
        written::NOT_WRITTEN => Err(refused(number).unwrap_or(unexpected)),
        _ => Err(unexpected),
    }
}

/// Gives the refusal of a number, or nothing where it is none.
pub(crate) fn refused(number: u64) -> Option<Error> {
    u8::try_from(number).ok().map(Error::Refused)
}

#[cfg(test)]
mod tests {
    use super::*;

    /// Words of an unknown kind or with a number too large are no answer.
    #[test]
    fn words_that_are_no_answer() {
        for answer in [[3, 0], [2, 0], [0, 256], [u64::MAX, 5]] {
            let [kind, number] = answer;
            let words = [kind, number, 0, 0, 0, 0, 0, 0];
            assert_eq!(length(answer), Err(Error::Unexpected(words)));
        }
        assert_eq!(length([0, 13]), Err(Error::Refused(13)));
        assert_eq!(length([1, 40]), Ok(40));
    }
}
