//! The rules asked of a ULPDU: nothing here changes the state.

use crate::ddp::{read_segment, Header, Segment};
use crate::rdmap::{self, ReadRequest, Terminate};
use crate::refusal::{self as no, Fault};
use crate::state::{Device, RIGHT_READ, RIGHT_WRITE};
use crate::target::{check_range, RangeError, StagError};

/// The effects of an FPDU that has passed every rule.
pub(crate) enum Effect<'a> {
    Write {
        place: u64,
        payload: &'a [u8],
    },
    Send {
        place: u64,
        payload: &'a [u8],
        opcode: u8,
        last: bool,
        invalidate: Option<u32>,
    },
    Read(ReadRequest),
    Terminate(Terminate),
}

impl Device {
    /// Asks every rule of a ULPDU, lowest number first.
    pub(crate) fn judge<'a>(&self, stream: usize, ulpdu: &'a [u8]) -> Result<Effect<'a>, Fault> {
        let segment = read_segment(ulpdu)?;
        match segment.header {
            Header::Tagged { stag, to } => self.judge_tagged(stream, stag, to, &segment),
            Header::Untagged {
                invalidate,
                qn,
                msn,
                mo,
            } => {
                self.judge_queue(stream, qn, msn, mo, segment.payload.len() as u64)?;
                self.judge_message(stream, qn, invalidate, &segment)
            }
        }
    }

    /// Judges a tagged segment, which must be a Write.
    fn judge_tagged<'a>(
        &self,
        stream: usize,
        stag: u32,
        to: u64,
        segment: &Segment<'a>,
    ) -> Result<Effect<'a>, Fault> {
        let payload = segment.payload;
        if payload.is_empty() {
            judge_control(segment.rdmap_control, |opcode| opcode == rdmap::WRITE)?;
            return Ok(Effect::Write { place: 0, payload });
        }
        let window = self.window(stream, stag).map_err(|error| match error {
            StagError::OtherDomain => no::OTHER_DOMAIN,
            StagError::NotLive => no::INVALID_STAG,
        })?;
        check_range(window, to, payload.len() as u64).map_err(|error| match error {
            RangeError::Wrap => no::TO_WRAP,
            RangeError::Outside => no::BOUNDS,
        })?;
        judge_control(segment.rdmap_control, |opcode| opcode == rdmap::WRITE)?;
        if window.rights & RIGHT_WRITE == 0 {
            return Err(no::NO_WRITE_RIGHT);
        }
        let place = window.place + (to - window.base);
        Ok(Effect::Write { place, payload })
    }

    /// Judges an untagged segment's queue, MSN, buffer, MO and length.
    fn judge_queue(
        &self,
        stream: usize,
        qn: u32,
        msn: u32,
        mo: u32,
        length: u64,
    ) -> Result<(), Fault> {
        let record = &self.streams[stream];
        if qn > rdmap::TERMINATE_QUEUE {
            return Err(no::QUEUE_NUMBER);
        }
        if msn != record.next_msn[qn as usize] {
            return Err(no::MSN);
        }
        let (taken, room) = match qn {
            rdmap::SEND_QUEUE => {
                let buffer = record.buffers.first().ok_or(no::NO_BUFFER)?;
                (record.taken, buffer.length)
            }
            rdmap::READ_QUEUE if record.reads.is_full() => return Err(no::NO_BUFFER),
            rdmap::READ_QUEUE => (0, rdmap::READ_REQUEST_LENGTH as u64),
            _ => (0, rdmap::TERMINATE_MAX as u64),
        };
        if u64::from(mo) != taken {
            return Err(no::MO);
        }
        if taken + length > room {
            return Err(no::PAST_BUFFER);
        }
        Ok(())
    }

    /// Judges an untagged segment's message, its queue's rules being kept.
    fn judge_message<'a>(
        &self,
        stream: usize,
        qn: u32,
        invalidate: u32,
        segment: &Segment<'a>,
    ) -> Result<Effect<'a>, Fault> {
        let control = segment.rdmap_control;
        match qn {
            rdmap::SEND_QUEUE => self.judge_send(stream, invalidate, segment),
            rdmap::READ_QUEUE => {
                judge_control(control, |opcode| opcode == rdmap::READ_REQUEST)?;
                if segment.payload.len() != rdmap::READ_REQUEST_LENGTH || !segment.last {
                    return Err(no::MALFORMED);
                }
                let read = rdmap::read_request(segment.payload);
                if read.size > 0 {
                    self.judge_source(stream, &read)?;
                }
                Ok(Effect::Read(read))
            }
            _ => {
                judge_control(control, |opcode| opcode == rdmap::TERMINATE)?;
                if segment.payload.len() < rdmap::TERMINATE_MIN || !segment.last {
                    return Err(no::MALFORMED);
                }
                Ok(Effect::Terminate(rdmap::terminate(segment.payload)))
            }
        }
    }

    /// Judges a Send segment, whose buffer waits and has room.
    fn judge_send<'a>(
        &self,
        stream: usize,
        invalidate: u32,
        segment: &Segment<'a>,
    ) -> Result<Effect<'a>, Fault> {
        let record = &self.streams[stream];
        let opcode = judge_control(segment.rdmap_control, |opcode| {
            rdmap::is_send(opcode) && record.sending.is_none_or(|first| first == opcode)
        })?;
        let mut dying = None;
        if segment.last && rdmap::invalidates(opcode) {
            self.window(stream, invalidate)
                .map_err(|error| match error {
                    StagError::OtherDomain => no::INVALIDATE_OTHER_DOMAIN,
                    StagError::NotLive => no::INVALIDATE_NOT_LIVE,
                })?;
            dying = Some(invalidate);
        }
        let buffer = record.buffers.first().ok_or(no::NO_BUFFER)?;
        Ok(Effect::Send {
            place: buffer.start + record.taken,
            payload: segment.payload,
            opcode,
            last: segment.last,
            invalidate: dying,
        })
    }

    /// Judges the source that a Read Request of at least one byte names.
    fn judge_source(&self, stream: usize, read: &ReadRequest) -> Result<(), Fault> {
        let window = self
            .window(stream, read.source_stag)
            .map_err(|error| match error {
                StagError::OtherDomain => no::SOURCE_OTHER_DOMAIN,
                StagError::NotLive => no::SOURCE_NOT_LIVE,
            })?;
        check_range(window, read.source_to, u64::from(read.size)).map_err(|error| match error {
            RangeError::Wrap => no::SOURCE_WRAP,
            RangeError::Outside => no::SOURCE_BOUNDS,
        })?;
        if window.rights & RIGHT_READ == 0 {
            return Err(no::NO_READ_RIGHT);
        }
        Ok(())
    }
}

/// Judges an RDMAP control byte: its version, then whether its opcode fits.
fn judge_control(control: u8, fits: impl Fn(u8) -> bool) -> Result<u8, Fault> {
    if rdmap::version(control) != rdmap::VERSION {
        return Err(no::RDMAP_VERSION);
    }
    let opcode = rdmap::opcode(control);
    if fits(opcode) {
        Ok(opcode)
    } else {
        Err(no::OPCODE)
    }
}
