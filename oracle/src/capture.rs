//! TCP streams captured from another implementation of iWARP, with the STags that name our windows made ours.

use std::ops::Range;

use crate::bigendian::u16_at;
use crate::crc::crc_field;
use crate::ddp::{read_segment, Header, Segment};
use crate::mpa::{read_fpdu, Frame, CRC_FIELD, LENGTH_FIELD};
use crate::rdmap::{self, ReadRequest};
use crate::startup::HEADER;
use crate::state::{RIGHT_READ, RIGHT_WRITE};

/// Where an untagged or a tagged segment has its STag, and a Read Request its source STag, in the ULPDU.
const STAG: usize = 2;
const SOURCE_STAG: usize = 34;
/// The opcode of a Read Response.
const READ_RESPONSE: u8 = 2;
/// The C flag of a startup frame.
const FLAG_CRC: u8 = 0x40;
/// The key of each window; the low byte of a captured STag, mostly 0, is put upon it by exclusive or.
pub const KEY: u8 = 5;

/// What an STag of the capture names but for its low byte: its tagged offsets that are used, and the rights that this takes.
pub struct Region {
    pub name: u32,
    pub offsets: Range<u64>,
    pub rights: u8,
}

/// A captured stream behind its startup frame: the bytes, the ends of TCP's segments in them, and what they name.
pub struct Capture {
    pub crc: bool,
    pub bytes: Vec<u8>,
    pub ends: Vec<usize>,
    pub regions: Vec<Region>,
}

impl Capture {
    /// Reads a capture, a line of hex for each segment of TCP; the window `first` and those behind it become its regions.
    pub fn read(text: &str, first: u32) -> Option<Self> {
        let mut bytes = Vec::new();
        let mut ends = Vec::new();
        for line in text.lines() {
            bytes.extend(crate::hex::decode(line.as_bytes())?);
            ends.push(bytes.len());
        }
        let crc = bytes.get(16)? & FLAG_CRC != 0;
        let startup = HEADER + usize::from(u16_at(bytes.get(18..HEADER)?, 0));
        if bytes.len() < startup {
            return None;
        }
        bytes.drain(..startup);
        let ends = ends.into_iter().filter(|&end| end > startup);
        let mut capture = Capture {
            crc,
            bytes,
            ends: ends.map(|end| end - startup).collect(),
            regions: Vec::new(),
        };
        for frame in capture.frames() {
            capture.find_regions(frame);
        }
        for frame in capture.frames() {
            capture.rename(frame, first);
        }
        Some(capture)
    }

    /// Gives the ranges of the FPDUs that are whole.
    pub fn frames(&self) -> Vec<Range<usize>> {
        let mut frames = Vec::new();
        let mut start = 0;
        while let Frame::Whole { total, .. } = read_fpdu(false, &self.bytes[start..]) {
            frames.push(start..start + total);
            start += total;
        }
        frames
    }

    /// Gives the segment of an FPDU.
    pub fn segment(&self, frame: Range<usize>) -> Option<Segment<'_>> {
        match read_fpdu(false, &self.bytes[frame]) {
            Frame::Whole { ulpdu, .. } => read_segment(ulpdu).ok(),
            _ => None,
        }
    }

    /// Notes what an FPDU names, and how.
    fn find_regions(&mut self, frame: Range<usize>) {
        let Some(segment) = self.segment(frame) else {
            return;
        };
        let length = segment.payload.len() as u64;
        let opcode = rdmap::opcode(segment.rdmap_control);
        let named = match segment.header {
            Header::Tagged { stag, to } if length > 0 => {
                let right = match opcode {
                    READ_RESPONSE => RIGHT_READ,
                    _ => RIGHT_WRITE,
                };
                Some((stag, to..to.saturating_add(length), right))
            }
            Header::Untagged { invalidate, .. } if rdmap::invalidates(opcode) => {
                Some((invalidate, 0..0, RIGHT_READ))
            }
            _ => read_source(&segment).map(|read| {
                let end = read.source_to.saturating_add(u64::from(read.size));
                (read.source_stag, read.source_to..end, RIGHT_READ)
            }),
        };
        if let Some((stag, offsets, right)) = named {
            self.note(stag >> 8, offsets, right);
        }
    }

    /// Notes that a region is used at these offsets.
    fn note(&mut self, name: u32, offsets: Range<u64>, right: u8) {
        let Some(known) = self.regions.iter_mut().find(|region| region.name == name) else {
            return self.regions.push(Region {
                name,
                offsets,
                rights: right,
            });
        };
        known.rights |= right;
        if known.offsets.is_empty() {
            known.offsets = offsets;
        } else if !offsets.is_empty() {
            known.offsets.start = known.offsets.start.min(offsets.start);
            known.offsets.end = known.offsets.end.max(offsets.end);
        }
    }

    /// Makes the STags of an FPDU ours, and its CRC right where it is on.
    fn rename(&mut self, frame: Range<usize>, first: u32) {
        let Some(segment) = self.segment(frame.clone()) else {
            return;
        };
        let at = match read_source(&segment) {
            Some(_) => SOURCE_STAG,
            None => STAG,
        };
        let bytes = &mut self.bytes[frame];
        let field = &mut bytes[LENGTH_FIELD + at..LENGTH_FIELD + at + 4];
        let name = u32::from_be_bytes([0, field[0], field[1], field[2]]);
        let found = self.regions.iter().position(|region| region.name == name);
        let Some(number) = found else {
            return;
        };
        let window = (first + number as u32).to_be_bytes();
        field[..3].copy_from_slice(&window[1..]);
        field[3] ^= KEY;
        let (covered, crc) = bytes.split_at_mut(bytes.len() - CRC_FIELD);
        if self.crc {
            crc.copy_from_slice(&crc_field(covered));
        }
    }
}

/// Gives the Read Request of a segment that is one.
fn read_source(segment: &Segment) -> Option<ReadRequest> {
    let is_read = rdmap::opcode(segment.rdmap_control) == rdmap::READ_REQUEST
        && segment.payload.len() == rdmap::READ_REQUEST_LENGTH;
    is_read.then(|| rdmap::read_request(segment.payload))
}
