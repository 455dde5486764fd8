//! The startup frames of revision 2 (RFC 6581), whose private data may start with four bytes on reads and on the first message.

use crate::bigendian::u16_at;
use crate::refusal::Refusal;
use crate::startup::{put_frame, read_startup, Role, Startup};
use crate::startup::{FLAGS, LENGTH, REVISION, REVISION_1};
use crate::startup::{FLAG_CRC, FLAG_MARKERS, FLAG_REJECT, HEADER, MAX_PRIVATE_DATA};

/// The flag S: the private data starts with the four bytes.
pub const FLAG_ENHANCED: u8 = 0x10;
/// Bytes of the enhanced connection establishment data.
pub const ESTABLISHMENT: usize = 4;
/// The most that the 14 bits of IRD or ORD hold; from the peer: not negotiated.
pub const MAX_DEPTH: u64 = 0x3FFF;

/// The ready-to-receive kinds, which add up.
pub const KIND_SEND: u64 = 4;
pub const KIND_WRITE: u64 = 2;
pub const KIND_READ: u64 = 1;
/// All kinds together.
pub const MAX_KINDS: u64 = KIND_SEND | KIND_WRITE | KIND_READ;

/// The revision of RFC 6581.
const REVISION_2: u8 = 2;
/// The flags A and B, above the IRD, and C and D, above the ORD.
const FLAG_HIGH: u16 = 0x8000;
const FLAG_LOW: u16 = 0x4000;

/// The enhanced connection establishment data: A, IRD, ORD and, for B, C and D, the kinds.
#[derive(Clone, Copy, Debug, PartialEq, Eq)]
pub struct Establishment {
    pub peer_to_peer: bool,
    pub ird: u64,
    pub ord: u64,
    pub kinds: u64,
}

impl Establishment {
    /// Says whether every number fits its field; the kinds must also where they are not written.
    pub fn fits(&self) -> bool {
        self.ird <= MAX_DEPTH && self.ord <= MAX_DEPTH && self.kinds <= MAX_KINDS
    }

    /// Gives the four bytes of numbers that fit.
    fn encode(&self) -> [u8; ESTABLISHMENT] {
        let flag = |kind: u64, bit: u16| match self.peer_to_peer && self.kinds & kind != 0 {
            true => bit,
            false => 0,
        };
        let model = u16::from(self.peer_to_peer) * FLAG_HIGH;
        let first = model | flag(KIND_SEND, FLAG_LOW) | self.ird as u16;
        let second = flag(KIND_WRITE, FLAG_HIGH) | flag(KIND_READ, FLAG_LOW) | self.ord as u16;
        let ([a, b], [c, d]) = (first.to_be_bytes(), second.to_be_bytes());
        [a, b, c, d]
    }

    /// Reads the four bytes at the front; without A there are no kinds.
    fn decode(bytes: &[u8]) -> Self {
        let (first, second) = (u16_at(bytes, 0), u16_at(bytes, 2));
        let peer_to_peer = first & FLAG_HIGH != 0;
        let kind = |field: u16, flag: u16, kind: u64| match peer_to_peer && field & flag != 0 {
            true => kind,
            false => 0,
        };
        Establishment {
            peer_to_peer,
            ird: u64::from(first) & MAX_DEPTH,
            ord: u64::from(second) & MAX_DEPTH,
            kinds: kind(first, FLAG_LOW, KIND_SEND)
                + kind(second, FLAG_HIGH, KIND_WRITE)
                + kind(second, FLAG_LOW, KIND_READ),
        }
    }
}

/// What reading a startup frame of either revision gives; `private_data` is what follows the establishment data.
#[derive(Clone, Copy, Debug, PartialEq, Eq)]
pub enum Startup2<'a> {
    Revision1(Startup<'a>),
    Wait(usize),
    Whole {
        total: usize,
        crc: bool,
        reject: bool,
        establishment: Option<Establishment>,
        private_data: &'a [u8],
    },
    Refused(Refusal),
}

/// Writes a startup frame of revision 2 at the front of `out` and gives its total.
pub fn write_startup2(
    role: Role,
    crc: bool,
    reject: bool,
    establishment: Option<Establishment>,
    private_data: &[u8],
    out: &mut [u8],
) -> Result<usize, Refusal> {
    let fits = establishment.is_none_or(|fields| fields.fits());
    if reject && role == Role::Request || !fits {
        return Err(Refusal::OutOfRange);
    }
    let mut data = match establishment {
        Some(fields) => fields.encode().to_vec(),
        None => Vec::new(),
    };
    data.extend(private_data);
    if data.len() > MAX_PRIVATE_DATA {
        return Err(Refusal::TooLong);
    }
    let mut flags = u8::from(establishment.is_some()) * FLAG_ENHANCED;
    flags |= (u8::from(crc) * FLAG_CRC) | (u8::from(reject) * FLAG_REJECT);
    put_frame(role, flags, REVISION_2, &data, out)
}

/// Reads the startup frame of the expected role, of either revision, at the front of `bytes`.
pub fn read_startup2(role: Role, bytes: &[u8]) -> Startup2<'_> {
    if bytes.len() < HEADER {
        return Startup2::Wait(HEADER);
    }
    if bytes[REVISION] == REVISION_1 {
        return Startup2::Revision1(read_startup(role, bytes));
    }
    let flags = bytes[FLAGS];
    let length = usize::from(u16_at(bytes, LENGTH));
    let least = match flags & FLAG_ENHANCED {
        0 => 0,
        _ => ESTABLISHMENT,
    };
    let known = bytes[..FLAGS] == role.key()[..] && bytes[REVISION] == REVISION_2;
    if !known || length > MAX_PRIVATE_DATA || length < least {
        return Startup2::Refused(Refusal::BadStartup);
    }
    if flags & FLAG_MARKERS != 0 {
        return Startup2::Refused(Refusal::Markers);
    }
    let total = HEADER + length;
    if bytes.len() < total {
        return Startup2::Wait(total);
    }
    let (fields, private_data) = bytes[HEADER..total].split_at(least);
    Startup2::Whole {
        total,
        crc: flags & FLAG_CRC != 0,
        reject: role == Role::Reply && flags & FLAG_REJECT != 0,
        establishment: (least > 0).then(|| Establishment::decode(fields)),
        private_data,
    }
}

#[cfg(test)]
mod tests {
    use super::*;
    use crate::generate::prng::Prng;

    /// Gives the frame of these 20 bytes' fields and this private data.
    fn frame(role: Role, flags: u8, revision: u8, length: u16, data: &[u8]) -> Vec<u8> {
        let mut bytes = role.key().to_vec();
        bytes.extend([flags, revision]);
        bytes.extend(length.to_be_bytes());
        bytes.extend(data);
        bytes
    }

    /// Names four values.
    fn fields(peer_to_peer: bool, ird: u64, ord: u64, kinds: u64) -> Establishment {
        Establishment {
            peer_to_peer,
            ird,
            ord,
            kinds,
        }
    }

    /// Every flag has its own bit, and the depths have all of theirs.
    #[test]
    fn the_four_bytes() {
        for (value, bytes) in [
            (fields(false, 0, 0, 0), [0x00, 0x00, 0x00, 0x00]),
            (fields(true, 0, 0, 0), [0x80, 0x00, 0x00, 0x00]),
            (fields(true, 0, 0, KIND_SEND), [0xC0, 0x00, 0x00, 0x00]),
            (fields(true, 0, 0, KIND_WRITE), [0x80, 0x00, 0x80, 0x00]),
            (fields(true, 0, 0, KIND_READ), [0x80, 0x00, 0x40, 0x00]),
            (fields(true, 0x0123, 0x3210, 7), [0xC1, 0x23, 0xF2, 0x10]),
            (fields(false, 0x3FFF, 0, 0), [0x3F, 0xFF, 0x00, 0x00]),
            (fields(false, 0, 0x3FFF, 0), [0x00, 0x00, 0x3F, 0xFF]),
        ] {
            assert_eq!(value.encode(), bytes);
            assert_eq!(Establishment::decode(&bytes), value);
        }
        // Without A the kinds are neither written nor read.
        assert_eq!(fields(false, 1, 2, 7).encode(), [0, 1, 0, 2]);
        let ignored = Establishment::decode(&[0x40, 1, 0xC0, 2]);
        assert_eq!(ignored, fields(false, 1, 2, 0));
    }

    /// What is written reads back, on random values.
    #[test]
    fn written_and_read() {
        let mut prng = Prng::new(9);
        for _ in 0..2000 {
            let role = prng.pick(&[Role::Request, Role::Reply]);
            let (crc, reject) = (prng.percent(50), role == Role::Reply && prng.percent(50));
            let (peer_to_peer, kinds) = (prng.percent(50), prng.below(8));
            let (ird, ord) = (prng.below(0x4000), prng.below(0x4000));
            let sent = fields(peer_to_peer, ird, ord, kinds);
            let read = fields(peer_to_peer, ird, ord, kinds * u64::from(peer_to_peer));
            let enhanced = prng.percent(70);
            let front = usize::from(enhanced) * ESTABLISHMENT;
            let length = prng.pick(&[0, 1, 7, MAX_PRIVATE_DATA - front]);
            let data = prng.bytes(length);
            let total = HEADER + front + length;
            let mut out = vec![0xA5; total + prng.index(3)];
            let sent = enhanced.then_some(sent);
            let written = write_startup2(role, crc, reject, sent, &data, &mut out);
            assert_eq!(written, Ok(total));
            assert!(out[total..].iter().all(|&byte| byte == 0xA5));
            let whole = Startup2::Whole {
                total,
                crc,
                reject,
                establishment: enhanced.then_some(read),
                private_data: &data,
            };
            assert_eq!(read_startup2(role, &out), whole);
            let short = &out[..total - 1];
            let waits = if total > HEADER { total } else { HEADER };
            assert_eq!(read_startup2(role, short), Startup2::Wait(waits));
            // A reader of revision 1 does not take it.
            let old = read_startup(role, &out);
            assert_eq!(old, Startup::Refused(Refusal::BadStartup));
        }
    }

    /// 1 before 12 before 13, and the slice as it was.
    #[test]
    fn refused_to_write() {
        let write = |role, reject, fields: Option<Establishment>, length: usize, room: usize| {
            let (data, mut out) = (vec![7; length], vec![0xA5; room]);
            let written = write_startup2(role, true, reject, fields, &data, &mut out);
            assert!(written.is_ok() || out.iter().all(|&byte| byte == 0xA5));
            written
        };
        let (request, reply) = (Role::Request, Role::Reply);
        let (one, twelve) = (Err(Refusal::OutOfRange), Err(Refusal::TooLong));
        let thirteen = Err(Refusal::NoRoom);
        let most = Some(fields(true, 0x3FFF, 0x3FFF, 7));
        for (fields, length) in [(None, 0), (None, 513), (most, 509)] {
            assert_eq!(write(request, true, fields, length, 0), one);
        }
        for peer_to_peer in [false, true] {
            for (ird, ord, kinds) in [(0x4000, 0, 0), (0, 0x4000, 0), (0, 0, 8), (1 << 32, 0, 0)] {
                let over = Some(fields(peer_to_peer, ird, ord, kinds));
                assert_eq!(write(reply, false, over, 0, 24), one);
                assert_eq!(write(reply, true, over, 600, 0), one);
            }
        }
        assert_eq!(write(reply, true, None, 513, 600), twelve);
        assert_eq!(write(reply, true, None, 513, 0), twelve);
        assert_eq!(write(reply, true, None, 512, 532), Ok(532));
        assert_eq!(write(reply, true, None, 512, 531), thirteen);
        assert_eq!(write(request, false, most, 509, 600), twelve);
        assert_eq!(write(request, false, most, 509, 0), twelve);
        assert_eq!(write(request, false, most, 508, 532), Ok(532));
        assert_eq!(write(request, false, most, 508, 531), thirteen);
        assert_eq!(write(request, false, most, 0, 23), thirteen);
    }

    /// Wait 20, 14, 15, Wait total, in this order; with S from four bytes of private data on.
    #[test]
    fn refused_to_read() {
        let (bad, markers) = (Refusal::BadStartup, Refusal::Markers);
        let read = |role, bytes: &[u8]| match read_startup2(role, bytes) {
            Startup2::Refused(refusal) => Err(refusal),
            Startup2::Wait(total) => Ok(total),
            other => panic!("{other:?}"),
        };
        for role in [Role::Request, Role::Reply] {
            let other = match role {
                Role::Request => Role::Reply,
                Role::Reply => Role::Request,
            };
            for (flags, revision, length, answer) in [
                (0x10, 2, 3, Err(bad)),
                (0x10, 2, 4, Ok(24)),
                (0x1F, 2, 0, Err(bad)),
                (0x00, 2, 3, Ok(23)),
                (0x0F, 2, 3, Ok(23)),
                (0x10, 2, 512, Ok(532)),
                (0x10, 2, 513, Err(bad)),
                (0x00, 2, 512, Ok(532)),
                (0x00, 2, 513, Err(bad)),
                (0x90, 2, 3, Err(bad)),
                (0x90, 2, 4, Err(markers)),
                (0xE0, 2, 1, Err(markers)),
                (0x00, 0, 1, Err(bad)),
                (0x00, 3, 1, Err(bad)),
                (0x80, 3, 1, Err(bad)),
            ] {
                let bytes = frame(role, flags, revision, length, &[]);
                assert_eq!(read(role, &bytes), answer, "{bytes:?}");
                assert_eq!(read(other, &bytes), Err(bad));
                assert_eq!(read(role, &bytes[..19]), Ok(20));
            }
        }
    }

    /// Revision 1 reads as before, S set or not.
    #[test]
    fn revision_1() {
        let mut prng = Prng::new(5);
        for _ in 0..3000 {
            let role = prng.pick(&[Role::Request, Role::Reply]);
            let (flags, length) = (prng.draw() as u8, prng.pick(&[0, 1, 3, 4, 512, 513]));
            let present = prng.index(usize::from(length) + 3);
            let data = prng.bytes(present);
            let bytes = frame(role, flags, 1, length, &data);
            let told = prng.pick(&[Role::Request, Role::Reply]);
            let same = Startup2::Revision1(read_startup(told, &bytes));
            assert_eq!(read_startup2(told, &bytes), same);
        }
    }
}
