//! The numbered refusals: local ones, and faults of the peer with their Terminate codes.

use std::fmt;

/// A local refusal; its discriminant is its number.
#[derive(Clone, Copy, Debug, PartialEq, Eq)]
#[repr(u8)]
pub enum Refusal {
    OutOfRange = 1,
    LentLength = 2,
    NotOpen = 3,
    AlreadyOpen = 4,
    Ended = 5,
    WindowLive = 6,
    WindowDead = 7,
    KeyReused = 8,
    Extent = 9,
    BuffersFull = 10,
    NoRead = 11,
    TooLong = 12,
    NoRoom = 13,
    BadStartup = 14,
    Markers = 15,
    Holds = 16,
    Shared = 19,
    InsufficientIrd = 40,
    NoMatchingRtr = 41,
}

impl fmt::Display for Refusal {
    /// Writes the refusal's number.
    fn fmt(&self, out: &mut fmt::Formatter) -> fmt::Result {
        write!(out, "{}", *self as u8)
    }
}

/// A refusal of the peer's bytes: its number and the Terminate layer, type and code.
#[derive(Clone, Copy, Debug, PartialEq, Eq)]
pub struct Fault {
    pub number: u8,
    pub layer: u8,
    pub etype: u8,
    pub code: u8,
}

impl fmt::Display for Fault {
    /// Writes the fault's number, layer, type and code.
    fn fmt(&self, out: &mut fmt::Formatter) -> fmt::Result {
        let Fault {
            number,
            layer,
            etype,
            code,
        } = self;
        write!(out, "{number} {layer}/{etype}/{code:02X}")
    }
}

/// Names a fault's four values.
const fn fault(number: u8, layer: u8, etype: u8, code: u8) -> Fault {
    Fault {
        number,
        layer,
        etype,
        code,
    }
}

pub const ULPDU_TOO_LONG: Fault = fault(20, 1, 0, 0x00);
pub const WRONG_CRC: Fault = fault(21, 2, 0, 0x02);
pub const ULPDU_TOO_SHORT: Fault = fault(22, 1, 0, 0x00);
pub const TAGGED_VERSION: Fault = fault(23, 1, 1, 0x04);
pub const UNTAGGED_VERSION: Fault = fault(23, 1, 2, 0x06);
pub const OTHER_DOMAIN: Fault = fault(24, 1, 1, 0x02);
pub const INVALID_STAG: Fault = fault(25, 1, 1, 0x00);
pub const TO_WRAP: Fault = fault(26, 1, 1, 0x03);
pub const BOUNDS: Fault = fault(27, 1, 1, 0x01);
pub const QUEUE_NUMBER: Fault = fault(28, 1, 2, 0x01);
pub const MSN: Fault = fault(29, 1, 2, 0x03);
pub const NO_BUFFER: Fault = fault(30, 1, 2, 0x02);
pub const MO: Fault = fault(31, 1, 2, 0x04);
pub const PAST_BUFFER: Fault = fault(32, 1, 2, 0x05);
pub const RDMAP_VERSION: Fault = fault(33, 0, 2, 0x05);
pub const OPCODE: Fault = fault(34, 0, 2, 0x06);
pub const NO_WRITE_RIGHT: Fault = fault(35, 0, 1, 0x02);
pub const INVALIDATE_OTHER_DOMAIN: Fault = fault(36, 0, 1, 0x03);
pub const INVALIDATE_NOT_LIVE: Fault = fault(36, 0, 1, 0x00);
pub const MALFORMED: Fault = fault(37, 0, 2, 0xFF);
pub const SOURCE_OTHER_DOMAIN: Fault = fault(38, 0, 1, 0x03);
pub const SOURCE_NOT_LIVE: Fault = fault(38, 0, 1, 0x00);
pub const SOURCE_WRAP: Fault = fault(38, 0, 1, 0x04);
pub const SOURCE_BOUNDS: Fault = fault(38, 0, 1, 0x01);
pub const NO_READ_RIGHT: Fault = fault(38, 0, 1, 0x02);

/// Every local refusal, in the order of the numbers.
pub const REFUSALS: [Refusal; 19] = [
    Refusal::OutOfRange,
    Refusal::LentLength,
    Refusal::NotOpen,
    Refusal::AlreadyOpen,
    Refusal::Ended,
    Refusal::WindowLive,
    Refusal::WindowDead,
    Refusal::KeyReused,
    Refusal::Extent,
    Refusal::BuffersFull,
    Refusal::NoRead,
    Refusal::TooLong,
    Refusal::NoRoom,
    Refusal::BadStartup,
    Refusal::Markers,
    Refusal::Holds,
    Refusal::Shared,
    Refusal::InsufficientIrd,
    Refusal::NoMatchingRtr,
];

/// Every fault, in the order of the numbers.
pub const FAULTS: [Fault; 25] = [
    ULPDU_TOO_LONG,
    WRONG_CRC,
    ULPDU_TOO_SHORT,
    TAGGED_VERSION,
    UNTAGGED_VERSION,
    OTHER_DOMAIN,
    INVALID_STAG,
    TO_WRAP,
    BOUNDS,
    QUEUE_NUMBER,
    MSN,
    NO_BUFFER,
    MO,
    PAST_BUFFER,
    RDMAP_VERSION,
    OPCODE,
    NO_WRITE_RIGHT,
    INVALIDATE_OTHER_DOMAIN,
    INVALIDATE_NOT_LIVE,
    MALFORMED,
    SOURCE_OTHER_DOMAIN,
    SOURCE_NOT_LIVE,
    SOURCE_WRAP,
    SOURCE_BOUNDS,
    NO_READ_RIGHT,
];
