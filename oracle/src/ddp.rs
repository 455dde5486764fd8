//! The DDP segment: a tagged or an untagged header, then the payload.

use crate::bigendian::{u32_at, u64_at};
use crate::refusal::{Fault, TAGGED_VERSION, ULPDU_TOO_SHORT, UNTAGGED_VERSION};

/// Bytes of a tagged header.
pub const TAGGED_HEADER: usize = 14;
/// Bytes of an untagged header.
pub const UNTAGGED_HEADER: usize = 18;
/// The tagged flag of the DDP control byte.
pub const FLAG_TAGGED: u8 = 0x80;
/// The last flag of the DDP control byte.
pub const FLAG_LAST: u8 = 0x40;
/// The version expected in the low two bits of the DDP control byte.
pub const VERSION: u8 = 1;

/// A segment with its header taken apart.
#[derive(Clone, Copy, Debug, PartialEq, Eq)]
pub struct Segment<'a> {
    pub last: bool,
    pub rdmap_control: u8,
    pub header: Header,
    pub payload: &'a [u8],
}

/// The part of the header that differs between the two models.
#[derive(Clone, Copy, Debug, PartialEq, Eq)]
pub enum Header {
    Tagged {
        stag: u32,
        to: u64,
    },
    Untagged {
        invalidate: u32,
        qn: u32,
        msn: u32,
        mo: u32,
    },
}

/// Reads a ULPDU as a segment, refusing a short one and another version.
pub fn read_segment(ulpdu: &[u8]) -> Result<Segment<'_>, Fault> {
    if ulpdu.len() < TAGGED_HEADER {
        return Err(ULPDU_TOO_SHORT);
    }
    let control = ulpdu[0];
    let tagged = control & FLAG_TAGGED != 0;
    if !tagged && ulpdu.len() < UNTAGGED_HEADER {
        return Err(ULPDU_TOO_SHORT);
    }
    if control & 3 != VERSION {
        return Err(if tagged {
            TAGGED_VERSION
        } else {
            UNTAGGED_VERSION
        });
    }
    let (header, header_length) = if tagged {
        (tagged_header(ulpdu), TAGGED_HEADER)
    } else {
        (untagged_header(ulpdu), UNTAGGED_HEADER)
    };
    Ok(Segment {
        last: control & FLAG_LAST != 0,
        rdmap_control: ulpdu[1],
        header,
        payload: &ulpdu[header_length..],
    })
}

/// Takes a tagged header apart.
fn tagged_header(ulpdu: &[u8]) -> Header {
    Header::Tagged {
        stag: u32_at(ulpdu, 2),
        to: u64_at(ulpdu, 6),
    }
}

/// Takes an untagged header apart.
fn untagged_header(ulpdu: &[u8]) -> Header {
    Header::Untagged {
        invalidate: u32_at(ulpdu, 2),
        qn: u32_at(ulpdu, 6),
        msn: u32_at(ulpdu, 10),
        mo: u32_at(ulpdu, 14),
    }
}
