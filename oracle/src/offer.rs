//! Offer: receive for bytes that TCP cuts where it likes; the stream holds the front of an FPDU until the rest comes.

use std::borrow::Cow;

use crate::receive::{Answer, Event};
use crate::refusal::{Fault, Refusal};
use crate::state::{Device, HELD, STREAMS};

/// What offer answers; `took` counts the bytes of this call that need not be offered again.
#[derive(Clone, Copy, Debug, PartialEq, Eq)]
pub enum Offered {
    Held {
        took: usize,
    },
    Taken {
        took: usize,
        total: usize,
        event: Event,
    },
    Refused(Refusal),
    Fault(Fault),
}

impl Device {
    /// Takes bytes up to the end of the first FPDU that they complete on a stream, or holds all of them, with the store lent
    /// and a second slice of `held` bytes.
    pub fn offer(&mut self, store: &mut [u8], held: u64, stream: u64, bytes: &[u8]) -> Offered {
        let number = match self.admit_offer(store.len(), held, stream) {
            Ok(number) => number,
            Err(refusal) => return Offered::Refused(refusal),
        };
        let mut front = std::mem::take(&mut self.streams[number].held);
        let before = front.len();
        let pending = if before == 0 {
            Cow::Borrowed(bytes)
        } else {
            front.extend(bytes);
            Cow::Owned(front)
        };
        match self.take_first(store, number, &pending) {
            Answer::Wait(_) => {
                self.streams[number].held = pending.into_owned();
                Offered::Held { took: bytes.len() }
            }
            Answer::Taken { total, event } => {
                let took = total - before;
                Offered::Taken { took, total, event }
            }
            Answer::Refused(refusal) => Offered::Refused(refusal),
            Answer::Fault(fault) => Offered::Fault(fault),
        }
    }

    /// Gives how many bytes a stream holds, or nothing where there is no such stream.
    pub fn held(&self, stream: u64) -> Option<usize> {
        let record = self.streams.get(usize::try_from(stream).ok()?)?;
        Some(record.held.len())
    }

    /// Asks the local refusals of offer.
    fn admit_offer(&self, lent: usize, held: u64, stream: u64) -> Result<usize, Refusal> {
        if stream < STREAMS as u64 && held != HELD as u64 {
            return Err(Refusal::LentLength);
        }
        self.admit(lent, stream)
    }
}
