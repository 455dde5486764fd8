//! The RDMAP control byte and the payloads of Read Request and Terminate.

use crate::bigendian::{u32_at, u64_at};

/// The version expected in the top two bits of the RDMAP control byte.
pub const VERSION: u8 = 1;

pub const WRITE: u8 = 0;
pub const READ_REQUEST: u8 = 1;
pub const SEND: u8 = 3;
pub const SEND_INVALIDATE: u8 = 4;
pub const SEND_SE_INVALIDATE: u8 = 6;
pub const TERMINATE: u8 = 7;

pub const SEND_QUEUE: u32 = 0;
pub const READ_QUEUE: u32 = 1;
pub const TERMINATE_QUEUE: u32 = 2;

/// Bytes of a Read Request payload.
pub const READ_REQUEST_LENGTH: usize = 28;
/// The fewest bytes of a Terminate payload.
pub const TERMINATE_MIN: usize = 4;
/// The most bytes of a Terminate payload.
pub const TERMINATE_MAX: usize = 52;

/// A waiting Read Request.
#[derive(Clone, Copy, Debug, Default, PartialEq, Eq)]
pub struct ReadRequest {
    pub sink_stag: u32,
    pub sink_to: u64,
    pub size: u32,
    pub source_stag: u32,
    pub source_to: u64,
}

/// The three values of a Terminate that are looked at.
#[derive(Clone, Copy, Debug, PartialEq, Eq)]
pub struct Terminate {
    pub layer: u8,
    pub etype: u8,
    pub code: u8,
}

/// Gives the version of an RDMAP control byte.
pub fn version(control: u8) -> u8 {
    control >> 6
}

/// Gives the opcode of an RDMAP control byte.
pub fn opcode(control: u8) -> u8 {
    control & 15
}

/// Says whether an opcode is one of the four Sends.
pub fn is_send(opcode: u8) -> bool {
    (SEND..=SEND_SE_INVALIDATE).contains(&opcode)
}

/// Says whether an opcode is a Send that invalidates an STag.
pub fn invalidates(opcode: u8) -> bool {
    opcode == SEND_INVALIDATE || opcode == SEND_SE_INVALIDATE
}

/// Reads a Read Request payload of 28 bytes.
pub fn read_request(payload: &[u8]) -> ReadRequest {
    ReadRequest {
        sink_stag: u32_at(payload, 0),
        sink_to: u64_at(payload, 4),
        size: u32_at(payload, 12),
        source_stag: u32_at(payload, 16),
        source_to: u64_at(payload, 20),
    }
}

/// Reads a Terminate payload of at least 4 bytes.
pub fn terminate(payload: &[u8]) -> Terminate {
    Terminate {
        layer: payload[0] >> 4,
        etype: payload[0] & 15,
        code: payload[1],
    }
}
