//! Receive: one FPDU is judged whole, and only then are its effects applied.

use crate::judge::Effect;
use crate::mpa::{read_fpdu, Frame};
use crate::rdmap::{self, Terminate};
use crate::refusal::{Fault, Refusal};
use crate::state::{stream_domain, Condition, Device, Stream, STREAMS};

/// What receive answers.
#[derive(Clone, Copy, Debug, PartialEq, Eq)]
pub enum Answer {
    Wait(usize),
    Taken { total: usize, event: Event },
    Refused(Refusal),
    Fault(Fault),
}

/// What a taken FPDU brings about for the caller.
#[derive(Clone, Copy, Debug, PartialEq, Eq)]
pub enum Event {
    None,
    Send {
        start: u64,
        length: u64,
        opcode: u8,
        invalidated: Option<u32>,
    },
    Terminate(Terminate),
}

impl Device {
    /// Handles the first FPDU of `bytes` on a stream, with the store lent.
    pub fn receive(&mut self, store: &mut [u8], stream: u64, bytes: &[u8]) -> Answer {
        let number = match self.admit(store.len(), stream) {
            Ok(number) => number,
            Err(refusal) => return Answer::Refused(refusal),
        };
        if !self.streams[number].held.is_empty() {
            return Answer::Refused(Refusal::Holds);
        }
        self.take_first(store, number, bytes)
    }

    /// Handles the first FPDU of `bytes` on an open stream.
    pub(crate) fn take_first(&mut self, store: &mut [u8], number: usize, bytes: &[u8]) -> Answer {
        let (total, ulpdu) = match read_fpdu(self.streams[number].crc, bytes) {
            Frame::Wait(total) => return Answer::Wait(total),
            Frame::Fault(fault) => return self.end(number, fault),
            Frame::Whole { total, ulpdu } => (total, ulpdu),
        };
        match self.judge(number, ulpdu) {
            Ok(effect) => {
                let event = self.apply(store, number, effect);
                Answer::Taken { total, event }
            }
            Err(fault) => self.end(number, fault),
        }
    }

    /// Asks the local refusals that receive and offer have in common.
    pub(crate) fn admit(&self, lent: usize, stream: u64) -> Result<usize, Refusal> {
        if stream >= STREAMS as u64 {
            return Err(Refusal::OutOfRange);
        }
        if lent as u64 != self.length {
            return Err(Refusal::LentLength);
        }
        self.usable(stream)
    }

    /// Ends a stream, which keeps the fault's code and holds nothing.
    fn end(&mut self, stream: usize, fault: Fault) -> Answer {
        let record = &mut self.streams[stream];
        record.condition = Condition::Faulted(fault);
        record.held.clear();
        Answer::Fault(fault)
    }

    /// Applies the effects of a judged FPDU to the store and the state.
    fn apply(&mut self, store: &mut [u8], stream: usize, effect: Effect) -> Event {
        let record = &mut self.streams[stream];
        match effect {
            Effect::Write { place, payload } => {
                put(store, place, payload);
                self.count_placed(stream, payload);
                Event::None
            }
            Effect::Send {
                place,
                payload,
                opcode,
                last,
                invalidate,
            } => {
                put(store, place, payload);
                record.taken += payload.len() as u64;
                record.sending = Some(opcode);
                self.count_placed(stream, payload);
                if last {
                    self.complete_send(stream, opcode, invalidate)
                } else {
                    Event::None
                }
            }
            Effect::Read(read) => {
                record.reads.push(read);
                record.raise_msn(rdmap::READ_QUEUE);
                Event::None
            }
            Effect::Terminate(terminate) => {
                record.raise_msn(rdmap::TERMINATE_QUEUE);
                record.condition = Condition::Terminated;
                Event::Terminate(terminate)
            }
        }
    }

    /// Counts the bytes of a payload that was placed for the stream's domain; the count stops at its highest value.
    fn count_placed(&mut self, stream: usize, payload: &[u8]) {
        let placed = &mut self.placed[stream_domain(stream)];
        *placed = placed.saturating_add(payload.len() as u32);
    }

    /// Completes the Send under way: its buffer is used up and its STag dies.
    fn complete_send(&mut self, stream: usize, opcode: u8, invalidated: Option<u32>) -> Event {
        let record = &mut self.streams[stream];
        let start = record.buffers.pop().map_or(0, |buffer| buffer.start);
        let length = std::mem::take(&mut record.taken);
        record.sending = None;
        record.raise_msn(rdmap::SEND_QUEUE);
        if let Some(stag) = invalidated {
            self.windows[(stag >> 8) as usize].live = false;
        }
        Event::Send {
            start,
            length,
            opcode,
            invalidated,
        }
    }
}

impl Stream {
    /// Moves a queue on to its next message number, which follows the last one with 0.
    fn raise_msn(&mut self, qn: u32) {
        let msn = &mut self.next_msn[qn as usize];
        *msn = msn.wrapping_add(1);
    }
}

/// Places a payload in the store.
fn put(store: &mut [u8], place: u64, payload: &[u8]) {
    let place = place as usize;
    store[place..place + payload.len()].copy_from_slice(payload);
}
