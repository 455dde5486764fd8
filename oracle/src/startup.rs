//! The startup frames of MPA: key, flags, revision, private data length, private data.

use crate::bigendian::u16_at;
use crate::refusal::Refusal;

/// Bytes before the private data.
pub const HEADER: usize = 20;
/// The longest private data.
pub const MAX_PRIVATE_DATA: usize = 512;
/// The flag that asks for markers.
pub const FLAG_MARKERS: u8 = 0x80;
/// The flag that asks for the CRC.
pub const FLAG_CRC: u8 = 0x40;
/// The flag that declines the connection.
pub const FLAG_REJECT: u8 = 0x20;

/// Where the flags, the revision and the private data length stand.
pub(crate) const FLAGS: usize = 16;
pub(crate) const REVISION: usize = 17;
pub(crate) const LENGTH: usize = 18;

/// The revision of RFC 5044.
pub(crate) const REVISION_1: u8 = 1;

/// Which of the two startup frames.
#[derive(Clone, Copy, Debug, PartialEq, Eq)]
pub enum Role {
    Request,
    Reply,
}

impl Role {
    /// Gives the key that the frame starts with.
    pub fn key(self) -> &'static [u8; 16] {
        match self {
            Role::Request => b"MPA ID Req Frame",
            Role::Reply => b"MPA ID Rep Frame",
        }
    }
}

/// What reading a startup frame gives.
#[derive(Clone, Copy, Debug, PartialEq, Eq)]
pub enum Startup<'a> {
    Wait(usize),
    Whole {
        total: usize,
        crc: bool,
        reject: bool,
        private_data: &'a [u8],
    },
    Refused(Refusal),
}

/// Writes a startup frame at the front of `out` and gives its total.
pub fn write_startup(
    role: Role,
    crc: bool,
    reject: bool,
    private_data: &[u8],
    out: &mut [u8],
) -> Result<usize, Refusal> {
    if reject && role == Role::Request {
        return Err(Refusal::OutOfRange);
    }
    if private_data.len() > MAX_PRIVATE_DATA {
        return Err(Refusal::TooLong);
    }
    let flags = (u8::from(crc) * FLAG_CRC) | (u8::from(reject) * FLAG_REJECT);
    put_frame(role, flags, REVISION_1, private_data, out)
}

/// Puts a frame of at most 512 bytes of private data at the front of `out`, where it fits, and gives its total.
pub(crate) fn put_frame(
    role: Role,
    flags: u8,
    revision: u8,
    private_data: &[u8],
    out: &mut [u8],
) -> Result<usize, Refusal> {
    let total = HEADER + private_data.len();
    if out.len() < total {
        return Err(Refusal::NoRoom);
    }
    out[..FLAGS].copy_from_slice(role.key());
    out[FLAGS] = flags;
    out[REVISION] = revision;
    out[LENGTH..HEADER].copy_from_slice(&(private_data.len() as u16).to_be_bytes());
    out[HEADER..total].copy_from_slice(private_data);
    Ok(total)
}

/// Reads the startup frame of the expected role at the front of `bytes`.
pub fn read_startup(role: Role, bytes: &[u8]) -> Startup<'_> {
    if bytes.len() < HEADER {
        return Startup::Wait(HEADER);
    }
    let flags = bytes[FLAGS];
    let length = usize::from(u16_at(bytes, LENGTH));
    let known = bytes[..FLAGS] == role.key()[..] && bytes[REVISION] == REVISION_1;
    if !known || length > MAX_PRIVATE_DATA {
        return Startup::Refused(Refusal::BadStartup);
    }
    if flags & FLAG_MARKERS != 0 {
        return Startup::Refused(Refusal::Markers);
    }
    let total = HEADER + length;
    if bytes.len() < total {
        return Startup::Wait(total);
    }
    Startup::Whole {
        total,
        crc: flags & FLAG_CRC != 0,
        reject: role == Role::Reply && flags & FLAG_REJECT != 0,
        private_data: &bytes[HEADER..total],
    }
}
