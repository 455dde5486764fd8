//! What the box holds: streams, windows, buffers and parts, with nothing that changes them.

use crate::fifo::Fifo;
use crate::gauge::Gauge;
use crate::mpa::MAX_FPDU;
use crate::rdmap::ReadRequest;
use crate::refusal::Fault;

pub const DOMAINS: usize = 4;
pub const STREAMS: usize = 16;
pub const STREAMS_PER_DOMAIN: usize = STREAMS / DOMAINS;
pub const WINDOWS: usize = 64;
pub const WINDOWS_PER_DOMAIN: usize = WINDOWS / DOMAINS;
/// The longest store.
pub const MAX_STORE: u64 = 16_777_216;
/// Bytes of the second lent slice: one longest FPDU for each stream.
pub const HELD: usize = STREAMS * MAX_FPDU;
/// The write bit of a window's rights.
pub const RIGHT_WRITE: u8 = 1;
/// The read bit of a window's rights.
pub const RIGHT_READ: u8 = 2;

/// A domain's part of the store, from `start` up to, not with, `end`.
#[derive(Clone, Copy, Debug, Default, PartialEq, Eq)]
pub struct Part {
    pub start: u64,
    pub end: u64,
}

impl Part {
    /// Says whether `length` bytes from `place`, at least one, lie inside the part.
    pub(crate) fn holds(self, place: u64, length: u64) -> bool {
        length >= 1 && place >= self.start && place <= self.end && length <= self.end - place
    }
}

/// A window; `key` is the last key it had, 0 before the first, and the rest counts while it is live.
#[derive(Clone, Copy, Debug, Default, PartialEq, Eq)]
pub struct Window {
    pub live: bool,
    pub key: u8,
    pub base: u64,
    pub length: u64,
    pub place: u64,
    pub rights: u8,
}

/// A receive buffer.
#[derive(Clone, Copy, Debug, Default, PartialEq, Eq)]
pub struct Buffer {
    pub start: u64,
    pub length: u64,
}

/// Whether a stream is open, and how it ended.
#[derive(Clone, Copy, Debug, Default, PartialEq, Eq)]
pub enum Condition {
    #[default]
    Closed,
    Open,
    Faulted(Fault),
    Terminated,
}

/// A stream; `sending` is the opcode of a Send under way and `taken` its bytes so far; `held` is the front of an FPDU that is
/// not whole yet.
#[derive(Clone, Debug, Default, PartialEq, Eq)]
pub struct Stream {
    pub condition: Condition,
    pub crc: bool,
    pub next_msn: [u32; 3],
    pub buffers: Fifo<Buffer>,
    pub reads: Fifo<ReadRequest>,
    pub sending: Option<u8>,
    pub taken: u64,
    pub held: Vec<u8>,
}

impl Stream {
    /// Gives the numbers of its unfinished buffers, the one in fill included, and of its untaken reads.
    pub fn waiting(&self) -> (usize, usize) {
        (self.buffers.len(), self.reads.len())
    }
}

/// The whole box but for the lent store; `placed` counts each domain's bytes since its last tick.
#[derive(Clone, Debug, PartialEq)]
pub struct Device {
    pub length: u64,
    pub parts: [Part; DOMAINS],
    pub streams: [Stream; STREAMS],
    pub windows: [Window; WINDOWS],
    pub placed: [u32; DOMAINS],
    pub gauges: [Gauge; DOMAINS],
}

impl Default for Device {
    /// Gives the box that a refused opening leaves.
    fn default() -> Self {
        Device {
            length: 0,
            parts: [Part::default(); DOMAINS],
            streams: std::array::from_fn(|_| Stream::default()),
            windows: [Window::default(); WINDOWS],
            placed: [0; DOMAINS],
            gauges: [Gauge::default(); DOMAINS],
        }
    }
}

/// Gives the domain that owns a stream.
pub fn stream_domain(stream: usize) -> usize {
    stream / STREAMS_PER_DOMAIN
}

/// Gives the domain that owns a window.
pub fn window_domain(window: usize) -> usize {
    window / WINDOWS_PER_DOMAIN
}
