//! The writer of messages: a Write or a Send, cut into segments that are asked for one after the other.

use crate::ddp::{self, FLAG_LAST, FLAG_TAGGED, TAGGED_HEADER, UNTAGGED_HEADER};
use crate::mpa::MAX_ULPDU;
use crate::rdmap;
use crate::refusal::Refusal;

/// The smallest ULPDU that a message is cut to: the longer header and one byte.
pub const MIN_ULPDU: u64 = UNTAGGED_HEADER as u64 + 1;

/// What the headers of a message say.
#[derive(Clone, Copy, Debug, PartialEq, Eq)]
enum Kind {
    Write { stag: u32, to: u64 },
    Send { opcode: u8, msn: u32, stag: u32 },
}

/// A message under way; `written` of its bytes have gone into segments.
#[derive(Clone, Debug, PartialEq, Eq)]
pub struct Message {
    kind: Kind,
    limit: usize,
    bytes: Vec<u8>,
    written: usize,
    ended: bool,
}

/// Gives a number as its field's type, or the refusal of one that the field cannot hold.
fn field<T: TryFrom<u64>>(number: u64) -> Result<T, Refusal> {
    T::try_from(number).map_err(|_| Refusal::OutOfRange)
}

/// Refuses a size that is too small, and a length that an offset cannot count.
fn check_size(limit: u64, length: u64) -> Result<(), Refusal> {
    field::<u32>(length)?;
    if limit < MIN_ULPDU {
        return Err(Refusal::OutOfRange);
    }
    Ok(())
}

/// Gives the size as a length, or the refusal of one above the limit.
fn allowed(limit: u64) -> Result<usize, Refusal> {
    if limit > MAX_ULPDU as u64 {
        return Err(Refusal::TooLong);
    }
    Ok(limit as usize)
}

/// Gives what the headers of a Write of that length say, and the size.
fn write_kind(limit: u64, stag: u64, to: u64, length: u64) -> Result<(Kind, usize), Refusal> {
    check_size(limit, length)?;
    let stag = field(stag)?;
    if u128::from(to) + u128::from(length) > 1 << 64 {
        return Err(Refusal::OutOfRange);
    }
    Ok((Kind::Write { stag, to }, allowed(limit)?))
}

/// Gives what the headers of a Send of that length say, and the size. The STag counts where it is to be invalidated.
fn send_kind(
    limit: u64,
    opcode: u64,
    msn: u64,
    stag: u64,
    length: u64,
) -> Result<(Kind, usize), Refusal> {
    check_size(limit, length)?;
    let opcode = field(opcode)?;
    if !rdmap::is_send(opcode) {
        return Err(Refusal::OutOfRange);
    }
    let msn = field(msn)?;
    let stag = match rdmap::invalidates(opcode) {
        true => field(stag)?,
        false => 0,
    };
    Ok((Kind::Send { opcode, msn, stag }, allowed(limit)?))
}

impl Message {
    /// Begins a Write in segments of at most `limit` bytes.
    pub fn write(limit: u64, stag: u64, to: u64, bytes: Vec<u8>) -> Result<Self, Refusal> {
        let begun = write_kind(limit, stag, to, bytes.len() as u64)?;
        Ok(Message::new(begun, bytes))
    }

    /// Begins a Send in segments of at most `limit` bytes.
    pub fn send(
        limit: u64,
        opcode: u64,
        msn: u64,
        stag: u64,
        bytes: Vec<u8>,
    ) -> Result<Self, Refusal> {
        let begun = send_kind(limit, opcode, msn, stag, bytes.len() as u64)?;
        Ok(Message::new(begun, bytes))
    }

    /// Starts with nothing written.
    fn new((kind, limit): (Kind, usize), bytes: Vec<u8>) -> Self {
        Message {
            kind,
            limit,
            bytes,
            written: 0,
            ended: false,
        }
    }

    /// Goes back to its first segment.
    pub fn restart(&mut self) {
        self.written = 0;
        self.ended = false;
    }

    /// Gives the bytes of its headers.
    fn header_length(&self) -> usize {
        match self.kind {
            Kind::Write { .. } => TAGGED_HEADER,
            Kind::Send { .. } => UNTAGGED_HEADER,
        }
    }

    /// Gives the length of the next segment, or nothing after the last.
    pub fn next_length(&self) -> Option<usize> {
        let left = self.bytes.len() - self.written;
        let whole = (self.header_length() + left).min(self.limit);
        (!self.ended).then_some(whole)
    }

    /// Writes the next segment at the front of `out` and gives its length, or nothing after the last.
    pub fn next(&mut self, out: &mut [u8]) -> Result<Option<usize>, Refusal> {
        let Some(length) = self.next_length() else {
            return Ok(None);
        };
        if out.len() < length {
            return Err(Refusal::NoRoom);
        }
        let (header, payload) = out[..length].split_at_mut(self.header_length());
        let end = self.written + payload.len();
        let last = end == self.bytes.len();
        self.write_header(last, header);
        payload.copy_from_slice(&self.bytes[self.written..end]);
        self.written = end;
        self.ended = last;
        Ok(Some(length))
    }

    /// Writes the next header.
    fn write_header(&self, last: bool, header: &mut [u8]) {
        let flags = if last { FLAG_LAST } else { 0 } | ddp::VERSION;
        let control = |opcode| rdmap::VERSION << 6 | opcode;
        match self.kind {
            Kind::Write { stag, to } => {
                header[..2].copy_from_slice(&[flags | FLAG_TAGGED, control(rdmap::WRITE)]);
                header[2..6].copy_from_slice(&stag.to_be_bytes());
                let here = to.wrapping_add(self.written as u64);
                header[6..].copy_from_slice(&here.to_be_bytes());
            }
            Kind::Send { opcode, msn, stag } => {
                header[..2].copy_from_slice(&[flags, control(opcode)]);
                header[2..6].copy_from_slice(&stag.to_be_bytes());
                header[6..10].copy_from_slice(&rdmap::SEND_QUEUE.to_be_bytes());
                header[10..14].copy_from_slice(&msn.to_be_bytes());
                header[14..].copy_from_slice(&(self.written as u32).to_be_bytes());
            }
        }
    }

    /// Gives all the segments that are left.
    pub fn segments(mut self) -> Vec<Vec<u8>> {
        let mut segments = Vec::new();
        while let Some(length) = self.next_length() {
            let mut segment = vec![0; length];
            if self.next(&mut segment).is_err() {
                break;
            }
            segments.push(segment);
        }
        segments
    }
}

#[cfg(test)]
mod tests {
    use super::*;
    use crate::ddp::{read_segment, Header};
    use crate::generate::prng::Prng;

    /// The lengths of the payloads of a message.
    fn payloads(message: Message) -> Vec<usize> {
        let segments = message.segments();
        let length = |segment: &Vec<u8>| read_segment(segment).unwrap().payload.len();
        segments.iter().map(length).collect()
    }

    /// 2,048 bytes untagged at 1,500.
    #[test]
    fn the_example() {
        let send = Message::send(1500, 3, 1, 0, vec![7; 2048]).unwrap();
        assert_eq!(payloads(send), [1482, 566]);
        let write = Message::write(1500, 1, 0, vec![7; 2048]).unwrap();
        assert_eq!(payloads(write), [1486, 562]);
    }

    /// One segment for no bytes, and for what one holds; two for a byte more; at the smallest and the largest size.
    #[test]
    fn sizes_and_lengths() {
        for limit in [19, 20, 33, 1500, 2048, 8192] {
            for (header, opcode) in [(14, 0), (18, 3), (18, 6)] {
                let room = limit as usize - header;
                let begin = |length: usize| match opcode {
                    0 => Message::write(limit, 9, 100, vec![1; length]).unwrap(),
                    _ => Message::send(limit, opcode, 4, 77, vec![1; length]).unwrap(),
                };
                assert_eq!(payloads(begin(0)), [0]);
                assert_eq!(payloads(begin(1)), [1]);
                assert_eq!(payloads(begin(room)), [room]);
                assert_eq!(payloads(begin(room + 1)), [room, 1]);
                assert_eq!(payloads(begin(3 * room)), [room; 3]);
            }
        }
    }

    /// Every field of every segment, with offsets up to the last, and the payloads joined.
    #[test]
    fn fields() {
        let mut prng = Prng::new(4);
        let bytes = prng.bytes(300);
        let top = u64::MAX - 299;
        for (stag, to) in [(0, 0), (u64::from(u32::MAX), top)] {
            let message = Message::write(40, stag, to, bytes.clone()).unwrap();
            let segments = message.segments();
            let mut joined: Vec<u8> = Vec::new();
            for (number, bytes) in segments.iter().enumerate() {
                let segment = read_segment(bytes).unwrap();
                let to = to + joined.len() as u64;
                let stag = stag as u32;
                assert_eq!(segment.header, Header::Tagged { stag, to });
                assert_eq!(segment.rdmap_control, 0x40);
                assert_eq!(segment.last, number + 1 == segments.len());
                joined.extend(segment.payload);
            }
            assert_eq!(joined, bytes);
        }
        for (opcode, msn, stag) in [(3, 0, 5), (4, 1, 5), (5, u32::MAX, 5), (6, 7, u32::MAX)] {
            let (number, tag) = (u64::from(msn), u64::from(stag));
            let message = Message::send(40, opcode, number, tag, bytes.clone()).unwrap();
            let segments = message.segments();
            let mut joined: Vec<u8> = Vec::new();
            for (number, bytes) in segments.iter().enumerate() {
                let segment = read_segment(bytes).unwrap();
                let invalidate = if opcode % 2 == 0 { stag } else { 0 };
                let mo = joined.len() as u32;
                let header = Header::Untagged {
                    invalidate,
                    qn: 0,
                    msn,
                    mo,
                };
                assert_eq!(segment.header, header);
                assert_eq!(segment.rdmap_control, 0x40 | opcode as u8);
                assert_eq!(segment.last, number + 1 == segments.len());
                joined.extend(segment.payload);
            }
            assert_eq!(joined, bytes);
        }
    }

    /// What is refused, 1 before 12.
    #[test]
    fn refusals() {
        const OVER: u64 = 1 << 32;
        const TOP: u64 = u64::MAX;
        let write = |limit, stag, to, length| write_kind(limit, stag, to, length).err();
        let send =
            |limit, opcode, msn, stag, length| send_kind(limit, opcode, msn, stag, length).err();
        let (one, twelve) = (Some(Refusal::OutOfRange), Some(Refusal::TooLong));
        for limit in [0, 1, 14, 18] {
            assert_eq!(write(limit, 0, 0, 0), one);
            assert_eq!(send(limit, 3, 0, 0, 0), one);
        }
        for limit in [19, 2048, 2049, 8192] {
            assert_eq!(write(limit, OVER - 1, TOP, 1), None);
            assert_eq!(write(limit, OVER - 1, TOP, 0), None);
            assert_eq!(write(limit, 0, TOP - OVER + 2, OVER - 1), None);
            assert_eq!(send(limit, 3, OVER - 1, TOP, OVER - 1), None);
            assert_eq!(send(limit, 4, 0, OVER - 1, 0), None);
        }
        for limit in [19, 8192, 8193, TOP] {
            assert_eq!(write(limit, OVER, 0, 0), one);
            assert_eq!(write(limit, 0, 0, OVER), one);
            assert_eq!(write(limit, 0, TOP, 2), one);
            assert_eq!(write(limit, 0, TOP - OVER + 3, OVER - 1), one);
            assert_eq!(send(limit, 3, 0, 0, OVER), one);
            assert_eq!(send(limit, 5, OVER, 0, 0), one);
            assert_eq!(send(limit, 6, 0, OVER, 0), one);
            for opcode in [0, 1, 2, 7, 8, 15, 259, TOP] {
                assert_eq!(send(limit, opcode, 0, 0, 0), one);
            }
        }
        for limit in [8193, 65_536, TOP] {
            assert_eq!(write(limit, 0, 0, 0), twelve);
            assert_eq!(send(limit, 3, 0, 0, 0), twelve);
        }
    }

    /// A slice that is too small is left as it is, and the segment stays next.
    #[test]
    fn no_room() {
        let mut message = Message::send(100, 3, 1, 0, vec![5; 90]).unwrap();
        let mut out = [0xA5; 100];
        for length in [100, 26] {
            for room in [0, 1, length - 1] {
                assert_eq!(message.next(&mut out[..room]), Err(Refusal::NoRoom));
                assert_eq!(out, [0xA5; 100]);
            }
            assert_eq!(message.next(&mut out[..length]), Ok(Some(length)));
            out = [0xA5; 100];
        }
        assert_eq!(message.next(&mut []), Ok(None));
        assert_eq!(message.next(&mut out), Ok(None));
        assert_eq!(out, [0xA5; 100]);
    }
}
