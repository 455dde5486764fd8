//! A segment in the making, whose fields can be set right or wrong before it is written.

use crate::crc::crc_field;
use crate::ddp::{FLAG_LAST, FLAG_TAGGED};
use crate::mpa::{fpdu_total, CRC_FIELD};

/// The sink and the size of a Read Request.
#[derive(Clone, Copy, Debug)]
pub struct Sink {
    pub stag: u32,
    pub to: u64,
    pub size: u32,
}

/// The fields of a segment; `stag` and `to` are the source's where there is a `sink`, `cut` bytes are left off its end.
#[derive(Clone, Debug)]
pub struct Draft {
    pub tagged: bool,
    pub last: bool,
    pub ddp_version: u8,
    pub ddp_reserved: u8,
    pub rdmap_version: u8,
    pub rdmap_reserved: u8,
    pub opcode: u8,
    pub stag: u32,
    pub to: u64,
    pub qn: u32,
    pub msn: u32,
    pub mo: u32,
    pub sink: Option<Sink>,
    pub payload: Vec<u8>,
    pub cut: usize,
}

impl Draft {
    /// Starts a whole message of one untagged or tagged segment without payload.
    pub fn new(tagged: bool, opcode: u8) -> Self {
        Draft {
            tagged,
            last: true,
            ddp_version: 1,
            ddp_reserved: 0,
            rdmap_version: 1,
            rdmap_reserved: 0,
            opcode,
            stag: 0,
            to: 0,
            qn: 0,
            msn: 1,
            mo: 0,
            sink: None,
            payload: Vec::new(),
            cut: 0,
        }
    }

    /// Gives the count of bytes that the tagged offset is to reach over.
    pub fn reach(&self) -> u64 {
        match self.sink {
            Some(sink) => u64::from(sink.size),
            None => self.payload.len() as u64,
        }
    }

    /// Writes the segment.
    pub fn ulpdu(&self) -> Vec<u8> {
        let mut control = self.ddp_version & 3 | (self.ddp_reserved & 15) << 2;
        control |= (u8::from(self.tagged) * FLAG_TAGGED) | (u8::from(self.last) * FLAG_LAST);
        let rdmap = self.rdmap_version << 6 | (self.rdmap_reserved & 3) << 4 | self.opcode & 15;
        let mut bytes = vec![control, rdmap];
        bytes.extend(self.stag.to_be_bytes());
        if self.tagged {
            bytes.extend(self.to.to_be_bytes());
        } else {
            for field in [self.qn, self.msn, self.mo] {
                bytes.extend(field.to_be_bytes());
            }
        }
        if let Some(sink) = self.sink {
            bytes.extend(sink.stag.to_be_bytes());
            bytes.extend(sink.to.to_be_bytes());
            bytes.extend(sink.size.to_be_bytes());
            bytes.extend(self.stag.to_be_bytes());
            bytes.extend(self.to.to_be_bytes());
        }
        bytes.extend(&self.payload);
        bytes.truncate(bytes.len().saturating_sub(self.cut));
        bytes
    }
}

/// Frames a ULPDU of any length with the right CRC and this byte for the pad.
pub fn frame(ulpdu: &[u8], pad: u8) -> Vec<u8> {
    let mut bytes = (ulpdu.len() as u16).to_be_bytes().to_vec();
    bytes.extend(ulpdu);
    bytes.resize(fpdu_total(ulpdu.len()) - CRC_FIELD, pad);
    bytes.extend(crc_field(&bytes));
    bytes
}
