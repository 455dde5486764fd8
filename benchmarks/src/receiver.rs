//! The receivers that are compared, each set up by the same calls.

use std::marker::PhantomData;

use rnic::{Error, Offered, Reading, Received, Window};
use oracle::gauge::Reading as SecondReading;
use oracle::mpa::{read_fpdu, Frame, CRC_FIELD};
use oracle::offer::Offered as SecondOffered;
use oracle::receive::{Answer, Event as SecondEvent};
use oracle::refusal::{Refusal, WRONG_CRC};
use oracle::state::{Condition, Device as Second, Part, HELD, STREAMS};

use crate::crc::eight_tables;

/// What a call answers, as far as the receivers are compared in it.
#[derive(Clone, Copy, Debug, PartialEq, Eq)]
pub enum Outcome {
    /// It was done; what closing and taking give is left out.
    Done,
    /// A question's answer.
    Counted(u64),
    /// A gauge's reading: the bits of its level and of its peak, 0 for one that it does not give.
    Gauged { level: u64, peak: u64 },
    /// So many bytes are waited for.
    Wait(usize),
    /// An FPDU of this total was taken, which completes a Send or not.
    Taken { total: usize, sent: bool },
    /// So many bytes of an offer are kept, all of them.
    Kept(usize),
    /// So many bytes of an offer were taken, which complete an FPDU of this total.
    Completed {
        taken: usize,
        total: usize,
        sent: bool,
    },
    /// The number of a refusal, of the host's call or of the peer's bytes.
    Refused(u8),
}

/// Gives the outcome of a reading.
fn gauged(level: f64, peak: f64) -> Outcome {
    Outcome::Gauged {
        level: level.to_bits(),
        peak: peak.to_bits(),
    }
}

/// A receiver that can be set up and timed.
pub trait Receiver {
    /// Gives one that is not yet opened.
    fn new() -> Self;
    /// Opens it; the parts are given by their starts and ends.
    fn open(&mut self, length: u64, parts: [(u64, u64); 4]) -> Outcome;
    /// Opens a stream.
    fn open_stream(&mut self, stream: u64, crc: bool) -> Outcome;
    /// Closes a stream.
    fn close_stream(&mut self, stream: u64) -> Outcome;
    /// Registers a window.
    fn register(&mut self, number: u64, window: Window) -> Outcome;
    /// Posts a buffer.
    fn post(&mut self, stream: u64, start: u64, length: u64) -> Outcome;
    /// Drops a window.
    fn drop_window(&mut self, window: u64) -> Outcome;
    /// Takes a read.
    fn take(&mut self, stream: u64) -> Outcome;
    /// Counts a domain's live windows.
    fn live(&mut self, domain: u64) -> Outcome;
    /// Gives a domain's lowest free slot.
    fn free(&mut self, domain: u64) -> Outcome;
    /// Makes the count of the bytes placed for a domain a sample of its gauge.
    fn tick(&mut self, domain: u64) -> Outcome;
    /// Asks what a domain's gauge reads as.
    fn reading(&mut self, domain: u64) -> Outcome;
    /// Takes an FPDU.
    fn receive(&mut self, store: &mut [u8], stream: u64, bytes: &[u8]) -> Outcome;
    /// Takes bytes of an FPDU, or keeps them.
    fn offer(&mut self, store: &mut [u8], rooms: &mut [u8], stream: u64, bytes: &[u8]) -> Outcome;
}

/// Ours, through the C interface.
pub type Ours = rnic::Device;

/// Gives the outcome of one of our calls by what it gives back.
fn ours<T>(answer: Result<T, Error>, given: impl FnOnce(T) -> Outcome) -> Outcome {
    match answer {
        Ok(value) => given(value),
        Err(Error::Refused(number)) => Outcome::Refused(number),
        Err(error) => panic!("{error}"),
    }
}

impl Receiver for Ours {
    fn new() -> Self {
        rnic::Device::new()
    }

    fn open(&mut self, length: u64, parts: [(u64, u64); 4]) -> Outcome {
        let ranges = parts.map(|(start, end)| start..end);
        ours(rnic::Device::open(self, length, ranges), |()| Outcome::Done)
    }

    fn open_stream(&mut self, stream: u64, crc: bool) -> Outcome {
        let opened = rnic::Device::open_stream(self, stream, crc);
        ours(opened, |()| Outcome::Done)
    }

    fn close_stream(&mut self, stream: u64) -> Outcome {
        let closed = rnic::Device::close_stream(self, stream);
        ours(closed, |_| Outcome::Done)
    }

    fn register(&mut self, number: u64, window: Window) -> Outcome {
        let registered = rnic::Device::register(self, number, window);
        ours(registered, |()| Outcome::Done)
    }

    fn post(&mut self, stream: u64, start: u64, length: u64) -> Outcome {
        let posted = rnic::Device::post(self, stream, start, length);
        ours(posted, |()| Outcome::Done)
    }

    fn drop_window(&mut self, window: u64) -> Outcome {
        ours(rnic::Device::drop_window(self, window), |()| Outcome::Done)
    }

    fn take(&mut self, stream: u64) -> Outcome {
        ours(rnic::Device::take(self, stream), |_| Outcome::Done)
    }

    fn live(&mut self, domain: u64) -> Outcome {
        let count = rnic::Device::live_count(self, domain);
        ours(count, |count| Outcome::Counted(u64::from(count)))
    }

    fn free(&mut self, domain: u64) -> Outcome {
        let slot = rnic::Device::lowest_free(self, domain);
        ours(slot, |slot| Outcome::Counted(u64::from(slot)))
    }

    fn tick(&mut self, domain: u64) -> Outcome {
        ours(rnic::Device::tick(self, domain), |()| Outcome::Done)
    }

    fn reading(&mut self, domain: u64) -> Outcome {
        let reading = rnic::Device::reading(self, domain);
        ours(reading, |reading| match reading {
            Reading::Quiet => gauged(0.0, 0.0),
            Reading::Steady(level) => gauged(level, 0.0),
            Reading::Falling { level, peak } => gauged(level, peak),
        })
    }

    fn receive(&mut self, store: &mut [u8], stream: u64, bytes: &[u8]) -> Outcome {
        let received = rnic::Device::receive(self, store, stream, bytes);
        ours(received, |received| match received {
            Received::Wait(total) => Outcome::Wait(total),
            Received::Taken { total, event } => Outcome::Taken {
                total,
                sent: matches!(event, rnic::Event::Send { .. }),
            },
            Received::Ended(fault) => Outcome::Refused(fault.number),
        })
    }

    fn offer(&mut self, store: &mut [u8], rooms: &mut [u8], stream: u64, bytes: &[u8]) -> Outcome {
        let offered = rnic::Device::offer(self, store, rooms, stream, bytes);
        ours(offered, |offered| match offered {
            Offered::Kept { taken } => Outcome::Kept(taken),
            Offered::Taken {
                taken,
                total,
                event,
            } => Outcome::Completed {
                taken,
                total,
                sent: matches!(event, rnic::Event::Send { .. }),
            },
            Offered::Ended(fault) => Outcome::Refused(fault.number),
        })
    }
}

/// Gives the outcome of one of the second program's calls by what it gives back.
fn second<T>(answer: Result<T, Refusal>, given: impl FnOnce(T) -> Outcome) -> Outcome {
    match answer {
        Ok(value) => given(value),
        Err(refusal) => Outcome::Refused(refusal as u8),
    }
}

impl Receiver for Second {
    fn new() -> Self {
        Second::default()
    }

    fn open(&mut self, length: u64, parts: [(u64, u64); 4]) -> Outcome {
        let parts = parts.map(|(start, end)| Part { start, end });
        second(Second::open(self, length, parts), |()| Outcome::Done)
    }

    fn open_stream(&mut self, stream: u64, crc: bool) -> Outcome {
        second(Second::open_stream(self, stream, crc), |()| Outcome::Done)
    }

    fn close_stream(&mut self, stream: u64) -> Outcome {
        second(Second::close_stream(self, stream), |_| Outcome::Done)
    }

    fn register(&mut self, number: u64, window: Window) -> Outcome {
        let Window {
            key,
            base,
            length,
            place,
            rights,
        } = window;
        let registered = Second::register(self, number, key, base, length, place, rights);
        second(registered, |()| Outcome::Done)
    }

    fn post(&mut self, stream: u64, start: u64, length: u64) -> Outcome {
        second(Second::post(self, stream, start, length), |()| {
            Outcome::Done
        })
    }

    fn drop_window(&mut self, window: u64) -> Outcome {
        second(Second::drop_window(self, window), |()| Outcome::Done)
    }

    fn take(&mut self, stream: u64) -> Outcome {
        second(Second::take_read(self, stream), |_| Outcome::Done)
    }

    fn live(&mut self, domain: u64) -> Outcome {
        let count = Second::live(self, domain);
        second(count, |count| Outcome::Counted(count as u64))
    }

    fn free(&mut self, domain: u64) -> Outcome {
        let slot = Second::free(self, domain);
        second(slot, |slot| Outcome::Counted(slot as u64))
    }

    fn tick(&mut self, domain: u64) -> Outcome {
        second(Second::tick(self, domain), |()| Outcome::Done)
    }

    fn reading(&mut self, domain: u64) -> Outcome {
        let reading = Second::reading(self, domain);
        second(reading, |reading| match reading {
            SecondReading::Quiet => gauged(0.0, 0.0),
            SecondReading::Steady { level } => gauged(level, 0.0),
            SecondReading::Falling { level, peak } => gauged(level, peak),
        })
    }

    fn receive(&mut self, store: &mut [u8], stream: u64, bytes: &[u8]) -> Outcome {
        match Second::receive(self, store, stream, bytes) {
            Answer::Wait(total) => Outcome::Wait(total),
            Answer::Taken { total, event } => Outcome::Taken {
                total,
                sent: matches!(event, SecondEvent::Send { .. }),
            },
            Answer::Refused(refusal) => Outcome::Refused(refusal as u8),
            Answer::Fault(fault) => Outcome::Refused(fault.number),
        }
    }

    fn offer(&mut self, store: &mut [u8], rooms: &mut [u8], stream: u64, bytes: &[u8]) -> Outcome {
        match Second::offer(self, store, rooms.len() as u64, stream, bytes) {
            SecondOffered::Held { took } => Outcome::Kept(took),
            SecondOffered::Taken { took, total, event } => Outcome::Completed {
                taken: took,
                total,
                sent: matches!(event, SecondEvent::Send { .. }),
            },
            SecondOffered::Refused(refusal) => Outcome::Refused(refusal as u8),
            SecondOffered::Fault(fault) => Outcome::Refused(fault.number),
        }
    }
}

/// A routine for the CRC.
pub trait Routine {
    /// Gives the CRC of some bytes.
    fn crc(bytes: &[u8]) -> u32;
}

/// The CRC by eight tables.
pub struct EightTables;

impl Routine for EightTables {
    fn crc(bytes: &[u8]) -> u32 {
        eight_tables(bytes)
    }
}

/// The library's own CRC.
pub struct OurRoutine;

impl Routine for OurRoutine {
    fn crc(bytes: &[u8]) -> u32 {
        rnic::crc32c(bytes)
    }
}

/// The second program with its CRC by eight tables, and with ours.
pub type Eight = Checked<EightTables>;
pub type Same = Checked<OurRoutine>;

/// The second program with another CRC: its own check is off, and the bytes are checked before it.
pub struct Checked<C> {
    device: Second,
    checked: [bool; STREAMS],
    routine: PhantomData<C>,
}

impl<C: Routine> Checked<C> {
    /// Says whether the second program would look at a stream's bytes, and at their CRC: no refusal of the host's call is
    /// asked before it.
    fn checks(&self, store: &[u8], stream: u64) -> bool {
        let number = stream as usize;
        self.checked.get(number) == Some(&true)
            && store.len() as u64 == self.device.length
            && self.device.streams[number].condition == Condition::Open
    }

    /// Says whether it would find a wrong CRC: no other refusal of the frame is asked before it, but for a frame that is too
    /// long or not whole.
    fn is_wrong(bytes: &[u8]) -> bool {
        let Frame::Whole { total, .. } = read_fpdu(false, bytes) else {
            return false;
        };
        let (covered, crc) = bytes[..total].split_at(total - CRC_FIELD);
        crc != C::crc(covered).to_le_bytes()
    }

    /// Says whether a stream holds bytes.
    fn holds(&self, stream: u64) -> bool {
        !self.device.streams[stream as usize].held.is_empty()
    }

    /// Ends a stream by a wrong CRC.
    fn end(&mut self, stream: u64) -> Outcome {
        let record = &mut self.device.streams[stream as usize];
        record.condition = Condition::Faulted(WRONG_CRC);
        record.held.clear();
        Outcome::Refused(WRONG_CRC.number)
    }
}

impl<C: Routine> Receiver for Checked<C> {
    fn new() -> Self {
        Checked {
            device: Second::default(),
            checked: [false; STREAMS],
            routine: PhantomData,
        }
    }

    fn open(&mut self, length: u64, parts: [(u64, u64); 4]) -> Outcome {
        Receiver::open(&mut self.device, length, parts)
    }

    fn open_stream(&mut self, stream: u64, crc: bool) -> Outcome {
        let outcome = Receiver::open_stream(&mut self.device, stream, false);
        if outcome == Outcome::Done {
            self.checked[stream as usize] = crc;
        }
        outcome
    }

    fn close_stream(&mut self, stream: u64) -> Outcome {
        Receiver::close_stream(&mut self.device, stream)
    }

    fn register(&mut self, number: u64, window: Window) -> Outcome {
        Receiver::register(&mut self.device, number, window)
    }

    fn post(&mut self, stream: u64, start: u64, length: u64) -> Outcome {
        Receiver::post(&mut self.device, stream, start, length)
    }

    fn drop_window(&mut self, window: u64) -> Outcome {
        Receiver::drop_window(&mut self.device, window)
    }

    fn take(&mut self, stream: u64) -> Outcome {
        Receiver::take(&mut self.device, stream)
    }

    fn live(&mut self, domain: u64) -> Outcome {
        Receiver::live(&mut self.device, domain)
    }

    fn free(&mut self, domain: u64) -> Outcome {
        Receiver::free(&mut self.device, domain)
    }

    fn tick(&mut self, domain: u64) -> Outcome {
        Receiver::tick(&mut self.device, domain)
    }

    fn reading(&mut self, domain: u64) -> Outcome {
        Receiver::reading(&mut self.device, domain)
    }

    fn receive(&mut self, store: &mut [u8], stream: u64, bytes: &[u8]) -> Outcome {
        if self.checks(store, stream) && !self.holds(stream) && Self::is_wrong(bytes) {
            return self.end(stream);
        }
        Receiver::receive(&mut self.device, store, stream, bytes)
    }

    fn offer(&mut self, store: &mut [u8], rooms: &mut [u8], stream: u64, bytes: &[u8]) -> Outcome {
        if self.checks(store, stream) && rooms.len() == HELD {
            let wrong = match self.holds(stream) {
                false => Self::is_wrong(bytes),
                true => {
                    Self::is_wrong(&[&self.device.streams[stream as usize].held, bytes].concat())
                }
            };
            if wrong {
                return self.end(stream);
            }
        }
        Receiver::offer(&mut self.device, store, rooms, stream, bytes)
    }
}
