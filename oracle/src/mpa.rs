//! The FPDU: ULPDU length, ULPDU, pad to a multiple of four, CRC.

use crate::bigendian::u16_at;
use crate::crc::crc_field;
use crate::refusal::{Fault, Refusal, ULPDU_TOO_LONG, WRONG_CRC};

/// The longest ULPDU.
pub const MAX_ULPDU: usize = 8192;
/// Bytes of the ULPDU length field.
pub const LENGTH_FIELD: usize = 2;
/// Bytes of the CRC field.
pub const CRC_FIELD: usize = 4;

/// Bytes of the longest FPDU.
pub const MAX_FPDU: usize = fpdu_total(MAX_ULPDU);

/// What reading an FPDU gives.
#[derive(Clone, Copy, Debug, PartialEq, Eq)]
pub enum Frame<'a> {
    Wait(usize),
    Whole { total: usize, ulpdu: &'a [u8] },
    Fault(Fault),
}

/// Gives the total length of an FPDU with a ULPDU of this length.
pub const fn fpdu_total(ulpdu_length: usize) -> usize {
    (LENGTH_FIELD + ulpdu_length).next_multiple_of(4) + CRC_FIELD
}

/// Writes an FPDU at the front of `out` and gives its total.
pub fn write_fpdu(ulpdu: &[u8], out: &mut [u8]) -> Result<usize, Refusal> {
    if ulpdu.len() > MAX_ULPDU {
        return Err(Refusal::TooLong);
    }
    let total = fpdu_total(ulpdu.len());
    if out.len() < total {
        return Err(Refusal::NoRoom);
    }
    let ulpdu_end = LENGTH_FIELD + ulpdu.len();
    let (covered, crc) = out[..total].split_at_mut(total - CRC_FIELD);
    covered[..LENGTH_FIELD].copy_from_slice(&(ulpdu.len() as u16).to_be_bytes());
    covered[LENGTH_FIELD..ulpdu_end].copy_from_slice(ulpdu);
    covered[ulpdu_end..].fill(0);
    crc.copy_from_slice(&crc_field(covered));
    Ok(total)
}

/// Reads the first FPDU of `bytes`, checking the CRC where it is on.
pub fn read_fpdu(crc_on: bool, bytes: &[u8]) -> Frame<'_> {
    if bytes.len() < LENGTH_FIELD {
        return Frame::Wait(LENGTH_FIELD);
    }
    let length = usize::from(u16_at(bytes, 0));
    if length > MAX_ULPDU {
        return Frame::Fault(ULPDU_TOO_LONG);
    }
    let total = fpdu_total(length);
    if bytes.len() < total {
        return Frame::Wait(total);
    }
    let (covered, crc) = bytes[..total].split_at(total - CRC_FIELD);
    if crc_on && crc != crc_field(covered) {
        return Frame::Fault(WRONG_CRC);
    }
    let ulpdu = &covered[LENGTH_FIELD..LENGTH_FIELD + length];
    Frame::Whole { total, ulpdu }
}
