//! What is received, and by what device: eight FPDUs, whose payloads go to the front of the store. Windows and buffers
//! stand one after the other, since no two that peers may write to share a byte.

use rnic::Window;
use oracle::ddp::{TAGGED_HEADER, UNTAGGED_HEADER};
use oracle::generate::draft::{frame, Draft};
use oracle::generate::prng::Prng;
use oracle::mpa::LENGTH_FIELD;
use oracle::rdmap;
use oracle::state::{STREAMS_PER_DOMAIN, WINDOWS_PER_DOMAIN};

use crate::bed::RIGHTS;
use crate::placed::{self, Placed};
use crate::receiver::{Outcome, Receiver};

/// FPDUs of a scene, as many as buffers can wait on a stream.
pub const FRAMES: u64 = 8;
/// Streams that the Sends go to in turn, all of one domain.
pub const SEND_STREAMS: u64 = 4;
/// Bytes of each of the first domain's windows, which stand at the front of the store; the buffers stand behind them. In a
/// small store they have half of it.
pub const ROOM: u64 = 8192;
/// Bytes of each of the first domain's buffers where no Send uses them.
const UNUSED: u64 = 32;
/// The least bytes of a buffer that a Send uses; each starts at a multiple of so many.
const LINE: u64 = 64;
/// Bytes of each of the other domains, and of each of their windows and buffers.
const OTHER: u64 = 256;
const SMALL: u64 = 4;
/// Windows and streams of a domain.
const DOMAIN_WINDOWS: u64 = WINDOWS_PER_DOMAIN as u64;
const DOMAIN_STREAMS: u64 = STREAMS_PER_DOMAIN as u64;
/// The tagged offset at which each window starts.
pub const BASE: u64 = 4096;
/// The key of each window.
pub const KEY: u64 = 5;

/// The kinds of messages that are timed.
#[derive(Clone, Copy, Debug, PartialEq, Eq)]
pub enum Kind {
    Write,
    Send,
}

/// What is set up and received.
#[derive(Clone, Copy, Debug)]
pub struct Scene {
    pub kind: Kind,
    pub payload: usize,
    pub crc: bool,
    pub store: u64,
    pub windows: u64,
    pub streams: u64,
}

impl Scene {
    /// Gives the scene of the main table: a store of a mebibyte, one window, and the streams that are used.
    pub fn of(kind: Kind, payload: usize, crc: bool) -> Self {
        let (store, windows, streams) = (1 << 20, 1, SEND_STREAMS);
        Scene {
            kind,
            payload,
            crc,
            store,
            windows,
            streams,
        }
    }

    /// Writes the FPDUs: Writes to offsets that rise by a byte, or Sends of one segment with rising MSNs.
    pub fn frames(&self) -> Vec<Placed> {
        let mut prng = Prng::new(1);
        let segment = |number| {
            let mut draft = Draft::new(self.kind == Kind::Write, rdmap::WRITE);
            if self.kind == Kind::Write {
                (draft.stag, draft.to) = (KEY as u32, BASE + number);
            } else {
                (draft.opcode, draft.msn) = (rdmap::SEND, number as u32 + 1);
            }
            draft.payload = prng.bytes(self.payload);
            Placed::copy(placed::FPDU, &frame(&draft.ulpdu(), 0))
        };
        (0..FRAMES).map(segment).collect()
    }

    /// Gives where in the FPDU of a number the payload lies, and its place in the store when a stream receives it.
    pub fn span(&self, stream: u64, number: u64) -> (std::ops::Range<usize>, usize) {
        let (start, place) = match self.kind {
            Kind::Write => (LENGTH_FIELD + TAGGED_HEADER, number),
            Kind::Send => (
                LENGTH_FIELD + UNTAGGED_HEADER,
                self.buffer(stream, number).0,
            ),
        };
        (start..start + self.payload, place as usize)
    }

    /// Gives the part of a domain: the first has all but what the others need.
    fn part(&self, domain: u64) -> (u64, u64) {
        let end = self.store - (3 - domain) * OTHER;
        if domain == 0 {
            (0, end)
        } else {
            (end - OTHER, end)
        }
    }

    /// Gives the length of the first domain's windows.
    fn room(&self) -> u64 {
        ROOM.min(self.store / 2)
    }

    /// Gives the place and the length of a window.
    fn window(&self, number: u64) -> (u64, u64) {
        let (domain, slot) = (number / DOMAIN_WINDOWS, number % DOMAIN_WINDOWS);
        let length = if domain == 0 { self.room() } else { SMALL };
        (self.part(domain).0 + slot * length, length)
    }

    /// Gives the start and the length of a stream's buffer of a number.
    fn buffer(&self, stream: u64, number: u64) -> (u64, u64) {
        let (domain, slot) = (stream / DOMAIN_STREAMS, stream % DOMAIN_STREAMS);
        let length = match (domain, self.kind) {
            (0, Kind::Write) => UNUSED,
            (0, Kind::Send) => (self.payload as u64).next_multiple_of(LINE).max(LINE),
            _ => SMALL,
        };
        let windows = match domain {
            0 => self.windows.min(DOMAIN_WINDOWS) * self.room(),
            _ => DOMAIN_WINDOWS * SMALL,
        };
        let start = self.part(domain).0 + windows;
        (start + (slot * FRAMES + number) * length, length)
    }

    /// Sets up a device with the windows live, and the streams open with all the buffers that they can have.
    pub fn device<R: Receiver>(&self) -> R {
        let mut device = R::new();
        done(self.open(&mut device));
        for number in 0..self.windows {
            let (place, length) = self.window(number);
            let window = Window {
                key: KEY,
                base: BASE,
                length,
                place,
                rights: RIGHTS,
            };
            done(device.register(number, window));
        }
        for stream in 0..self.streams {
            self.open_stream(&mut device, stream);
        }
        device
    }

    /// Opens a device over the scene's store.
    pub fn open<R: Receiver>(&self, device: &mut R) -> Outcome {
        let parts = [0, 1, 2, 3].map(|domain| self.part(domain));
        device.open(self.store, parts)
    }

    /// Opens a stream and posts its buffers.
    fn open_stream<R: Receiver>(&self, device: &mut R, stream: u64) {
        done(device.open_stream(stream, self.crc));
        for number in 0..FRAMES {
            let (start, length) = self.buffer(stream, number);
            done(device.post(stream, start, length));
        }
    }

    /// Opens the streams of Sends anew, so that their MSNs start again and their buffers wait.
    pub fn reopen<R: Receiver>(&self, device: &mut R) {
        for stream in 0..SEND_STREAMS {
            done(device.close_stream(stream));
            self.open_stream(device, stream);
        }
    }
}

/// Stops where a call that sets the scene up was refused.
fn done(outcome: Outcome) {
    let refused = "a call that sets the scene up was refused";
    assert!(outcome == Outcome::Done, "{refused}");
}
