//! Startup frames, with which a connection opens, and what the two sides agree by them.

use crate::answer::Error;
use crate::message::{accepted, length, refused};
use crate::raw::{self, startup, RnicStartup, RnicTerms, Written};

/// A depth that is not negotiated, in the other side's terms; in a side's own terms it is this number.
pub const DEPTH_UNSAID: u64 = 0x3FFF;

/// Send among the kinds of a first message.
pub const KIND_SEND: u64 = 4;
/// Write among the kinds of a first message.
pub const KIND_WRITE: u64 = 2;
/// Read among the kinds of a first message.
pub const KIND_READ: u64 = 1;

/// Which of the two startup frames: the initiator's request or the responder's reply.
#[derive(Clone, Copy, Debug, PartialEq, Eq)]
pub enum Role {
    /// The initiator's.
    Request,
    /// The responder's.
    Reply,
}

/// What a side says of itself.
#[derive(Clone, Copy, Debug, PartialEq, Eq)]
pub struct Terms {
    /// Whether the connection is peer to peer.
    pub peer: bool,
    /// How many reads it takes at a time, at most 16,383.
    pub ird: u64,
    /// How many reads it makes at a time, at most 16,383.
    pub ord: u64,
    /// The kinds of a first message that it can do, added, which count in the peer-to-peer model alone.
    pub kinds: u64,
}

/// The form of a startup frame.
#[derive(Clone, Copy, Debug, PartialEq, Eq)]
pub enum Form {
    /// Revision 1.
    First,
    /// Revision 2 without the flag S.
    Second,
    /// Revision 2 with the flag S and the side's terms.
    Enhanced(Terms),
}

/// A startup frame without its private data.
#[derive(Clone, Copy, Debug, PartialEq, Eq)]
pub struct Startup {
    /// Whether the side asks for the CRC: it is on where one of the two does.
    pub crc: bool,
    /// Whether a reply declines the connection.
    pub declined: bool,
    /// The revision, and the terms where it has them.
    pub form: Form,
}

/// What reading a startup frame gives where it is not refused.
#[derive(Clone, Copy, Debug, PartialEq, Eq)]
pub enum StartupRead<'a> {
    /// The frame is not whole: so many bytes are needed, with those that are there.
    Wait(usize),
    /// The frame is there.
    Taken {
        /// Its length; the bytes behind it are the first FPDU's.
        total: usize,
        /// The frame.
        frame: Startup,
        /// Its private data, behind the terms.
        private_data: &'a [u8],
    },
}

/// What a responder answers.
#[derive(Clone, Copy, Debug, PartialEq, Eq)]
pub struct Answered {
    /// The terms that its reply says.
    pub reply: Terms,
    /// Those that it keeps to.
    pub kept: Terms,
}

impl Terms {
    /// Gives the terms as the library takes them.
    fn to_raw(self) -> RnicTerms {
        RnicTerms {
            peer: u64::from(self.peer),
            ird: self.ird,
            ord: self.ord,
            kinds: self.kinds,
        }
    }

    /// Gives the terms that the library tells, or nothing where its flag is neither 0 nor 1.
    fn from_raw(terms: RnicTerms) -> Option<Self> {
        Some(Terms {
            peer: flag(terms.peer)?,
            ird: terms.ird,
            ord: terms.ord,
            kinds: terms.kinds,
        })
    }
}

impl Startup {
    /// Gives the frame as the library takes it.
    fn to_raw(self) -> RnicStartup {
        let (kind, terms) = match self.form {
            Form::First => (startup::FIRST, NO_TERMS),
            Form::Second => (startup::SECOND, NO_TERMS),
            Form::Enhanced(terms) => (startup::ENHANCED, terms.to_raw()),
        };
        RnicStartup {
            kind,
            total: 0,
            start: 0,
            crc: u64::from(self.crc),
            declined: u64::from(self.declined),
            terms,
        }
    }

    /// Gives the frame that the library tells, or nothing where it is none.
    fn from_raw(found: &RnicStartup) -> Option<Self> {
        let form = match (found.kind, found.terms) {
            (startup::FIRST, NO_TERMS) => Form::First,
            (startup::SECOND, NO_TERMS) => Form::Second,
            (startup::ENHANCED, terms) => Form::Enhanced(Terms::from_raw(terms)?),
            _ => return None,
        };
        Some(Startup {
            crc: flag(found.crc)?,
            declined: flag(found.declined)?,
            form,
        })
    }
}

/// Terms of zeros.
const NO_TERMS: RnicTerms = RnicTerms {
    peer: 0,
    ird: 0,
    ord: 0,
    kinds: 0,
};

/// A frame of zeros.
const NO_FRAME: RnicStartup = RnicStartup {
    kind: 0,
    total: 0,
    start: 0,
    crc: 0,
    declined: 0,
    terms: NO_TERMS,
};

/// Reads the startup frame of the expected role, of either revision, at the front of `bytes`. Refused: 14 where it is none,
/// and 15 where the peer asks for markers.
pub fn read_startup(role: Role, bytes: &[u8]) -> Result<StartupRead<'_>, Error> {
    let mut found = NO_FRAME;
    // SAFETY: each pointer is that of a value held for the call, the first with its slice's own length; what is found is
    // borrowed for writing, so that the two do not overlap.
    unsafe {
        raw::rnic_c_startup_read(number(role), bytes.as_ptr(), bytes.len(), &mut found);
    }
    read(&found, bytes)
}

/// Writes a startup frame with its private data at the front of `out` and gives its total. Refused: 1 for a request that
/// declines or a number over its field, 12 for more than 512 bytes with the terms, and 13 where `out` is too short; then it
/// is as it was.
pub fn write_startup(
    role: Role,
    frame: Startup,
    private_data: &[u8],
    out: &mut [u8],
) -> Result<usize, Error> {
    let frame = frame.to_raw();
    let mut answer: Written = [0; 2];
    // SAFETY: as in `read_startup`; the output and the answer are borrowed for writing, so that they overlap nothing.
    unsafe {
        raw::rnic_c_startup_write(
            number(role),
            &frame,
            private_data.as_ptr(),
            private_data.len(),
            out.as_mut_ptr(),
            out.len(),
            &mut answer,
        );
    }
    length(answer)
}

/// Gives what a responder of its own terms answers to a request's. Refused: 1 for a number over its field, 40 where our IRD is
/// under the request's ORD, and 41 where there is no kind of first message that both can do.
pub fn answer(own: Terms, request: Terms) -> Result<Answered, Error> {
    let (own, request) = (own.to_raw(), request.to_raw());
    let (mut reply, mut kept) = (NO_TERMS, NO_TERMS);
    // SAFETY: the pointers are those of values held for the call, and no two are of the same.
    let refusal = unsafe { raw::rnic_c_agree_answer(&own, &request, &mut reply, &mut kept) };
    accepted(refusal)?;
    Ok(Answered {
        reply: told(reply)?,
        kept: told(kept)?,
    })
}

/// Gives what an initiator keeps to after the reply to its own terms; its kind is that of the first message, which is empty,
/// or 0. Refused as [`answer()`] is.
pub fn settle(own: Terms, reply: Terms) -> Result<Terms, Error> {
    let (own, reply) = (own.to_raw(), reply.to_raw());
    let mut kept = NO_TERMS;
    // SAFETY: as in `answer`.
    let refusal = unsafe { raw::rnic_c_agree_settle(&own, &reply, &mut kept) };
    accepted(refusal)?;
    told(kept)
}

/// Gives the number by which the library tells a reply from a request.
fn number(role: Role) -> u64 {
    match role {
        Role::Request => 0,
        Role::Reply => 1,
    }
}

/// Gives a flag that the library tells, or nothing where it is neither 0 nor 1.
fn flag(word: u64) -> Option<bool> {
    match word {
        0 => Some(false),
        1 => Some(true),
        _ => None,
    }
}

/// Gives the terms that the library tells, or their words.
fn told(terms: RnicTerms) -> Result<Terms, Error> {
    let words = [terms.peer, terms.ird, terms.ord, terms.kinds, 0, 0, 0, 0];
    Terms::from_raw(terms).ok_or(Error::Unexpected(words))
}

/// Reads the words of a frame, or gives the refusal, or all of the words but the last where they are no answer.
fn read<'a>(found: &RnicStartup, bytes: &'a [u8]) -> Result<StartupRead<'a>, Error> {
    let alone = RnicStartup {
        kind: found.kind,
        total: found.total,
        ..NO_FRAME
    };
    let frame = match found.kind {
        startup::REFUSED if *found == alone => match refused(found.total) {
            Some(refusal) => return Err(refusal),
            None => None,
        },
        startup::WAIT if *found == alone => {
            usize::try_from(found.total).ok().map(StartupRead::Wait)
        }
        _ => taken(found, bytes),
    };
    let RnicStartup {
        kind,
        total,
        start,
        crc,
        declined,
        terms,
    } = *found;
    let words = [
        kind, total, start, crc, declined, terms.peer, terms.ird, terms.ord,
    ];
    frame.ok_or(Error::Unexpected(words))
}

/// Reads a frame that is there, or gives nothing where its words are none or its private data lies out of the bytes.
fn taken<'a>(found: &RnicStartup, bytes: &'a [u8]) -> Option<StartupRead<'a>> {
    let total = usize::try_from(found.total).ok()?;
    let start = usize::try_from(found.start).ok()?;
    Some(StartupRead::Taken {
        total,
        frame: Startup::from_raw(found)?,
        private_data: bytes.get(start..total)?,
    })
}

#[cfg(test)]
mod tests {
    use super::*;

    /// Words of an unknown kind, with a flag that is none, with a word too many or beyond the bytes are no answer.
    #[test]
    fn words_that_are_no_answer() {
        let bytes = [7; 30];
        let frame = RnicStartup {
            kind: startup::ENHANCED,
            total: 27,
            start: 24,
            crc: 1,
            declined: 0,
            terms: RnicTerms {
                peer: 1,
                ird: 2,
                ord: 3,
                kinds: 4,
            },
        };
        let changed = |change: fn(&mut RnicStartup)| {
            let mut frame = frame;
            change(&mut frame);
            frame
        };
        for found in [
            changed(|frame| frame.kind = 4),
            changed(|frame| frame.kind = 6),
            changed(|frame| frame.kind = u64::MAX),
            changed(|frame| frame.kind = startup::REFUSED),
            changed(|frame| frame.kind = startup::WAIT),
            changed(|frame| frame.kind = startup::FIRST),
            changed(|frame| frame.kind = startup::SECOND),
            changed(|frame| frame.total = 31),
            changed(|frame| frame.start = 28),
            changed(|frame| frame.crc = 2),
            changed(|frame| frame.declined = 2),
            changed(|frame| frame.terms.peer = 2),
            RnicStartup {
                kind: startup::REFUSED,
                total: 256,
                ..NO_FRAME
            },
        ] {
            let error = read(&found, &bytes);
            assert!(matches!(error, Err(Error::Unexpected(_))), "{found:?}");
        }
        let refusal = RnicStartup {
            total: 14,
            ..NO_FRAME
        };
        assert_eq!(read(&refusal, &bytes), Err(Error::Refused(14)));
        let terms = Terms {
            peer: true,
            ird: 2,
            ord: 3,
            kinds: 4,
        };
        let taken = StartupRead::Taken {
            total: 27,
            frame: Startup {
                crc: true,
                declined: false,
                form: Form::Enhanced(terms),
            },
            private_data: &[7; 3],
        };
        assert_eq!(read(&frame, &bytes), Ok(taken));
    }
}
