//! Messages from the writer, beside the second program's, framed and given to another device.

use oracle::generate::prng::Prng;
use oracle::mpa;
use oracle::refusal::Refusal;
use oracle::sender;
use rnic::{
    read_fpdu, write_fpdu, Device, Error, Event, FpduRead, Message, Received, Window, RIGHT_WRITE,
};

/// The store of the device that receives, of which every domain has a quarter.
const STORE: usize = 131_072;
/// The place of the window, and of the buffer.
const PLACE: u64 = 1024;

/// A message as it is begun; opcode 0 is a Write.
#[derive(Clone, Copy, Debug)]
struct Case {
    limit: u64,
    opcode: u64,
    stag: u64,
    to: u64,
    msn: u64,
}

impl Case {
    /// Begins it with the library.
    fn begin(&self, length: usize) -> Result<Message, Error> {
        let length = length as u64;
        match self.opcode {
            0 => Message::write(self.limit, self.stag, self.to, length),
            _ => Message::send(self.limit, self.opcode, self.msn, self.stag, length),
        }
    }

    /// Begins it with the second program.
    fn begin_there(&self, bytes: &[u8]) -> Result<sender::Message, Refusal> {
        let bytes = bytes.to_vec();
        match self.opcode {
            0 => sender::Message::write(self.limit, self.stag, self.to, bytes),
            _ => sender::Message::send(self.limit, self.opcode, self.msn, self.stag, bytes),
        }
    }
}

/// Asks for the next segment with room that is now and then too small by one, and checks what stays.
fn next(prng: &mut Prng, message: &mut Message, bytes: &[u8], length: usize) -> Vec<u8> {
    let mut out = vec![0xA5; length + prng.index(3)];
    if prng.percent(20) {
        let before = message.clone();
        let short = &mut out[..length - 1];
        assert_eq!(message.next(bytes, short), Err(Error::Refused(13)));
        assert_eq!(*message, before);
        assert!(out.iter().all(|&byte| byte == 0xA5));
    }
    assert_eq!(message.next(bytes, &mut out), Ok(Some(length)));
    assert!(out[length..].iter().all(|&byte| byte == 0xA5));
    out.truncate(length);
    out
}

/// Asks for all the segments, each the same as the second program's.
fn segments(prng: &mut Prng, case: Case, bytes: &[u8]) -> Vec<Vec<u8>> {
    let mut message = case.begin(bytes.len()).unwrap();
    let mut other = case.begin_there(bytes).unwrap();
    let mut segments = Vec::new();
    while let Some(length) = other.next_length() {
        let mut there = vec![0; length];
        assert_eq!(other.next(&mut there), Ok(Some(length)));
        let here = next(prng, &mut message, bytes, length);
        assert!(here == there, "{case:?}");
        segments.push(here);
    }
    for room in [0, 100] {
        assert_eq!(message.next(bytes, &mut vec![0; room]), Ok(None));
    }
    segments
}

/// Frames a segment, the same as the second program does.
fn framed(segment: &[u8]) -> Vec<u8> {
    let total = mpa::fpdu_total(segment.len());
    let (mut here, mut there) = (vec![0xA5; total], vec![0; total]);
    assert_eq!(write_fpdu(segment, &mut here), Ok(total));
    assert_eq!(mpa::write_fpdu(segment, &mut there), Ok(total));
    assert!(here == there);
    here
}

/// Opens a device whose stream 0 has a window and a buffer of at least that many bytes, at the same place of the part.
fn device(prng: &mut Prng, to: u64, length: usize) -> Device {
    let mut device = Device::new();
    let quarter = STORE as u64 / 4;
    let part = |domain: u64| domain * quarter..(domain + 1) * quarter;
    device
        .open(STORE as u64, [part(0), part(1), part(2), part(3)])
        .unwrap();
    device.open_stream(0, prng.percent(50)).unwrap();
    let room = length.max(1) as u64;
    let window = Window {
        key: 5,
        base: to,
        length: room,
        place: PLACE,
        rights: RIGHT_WRITE,
    };
    device.register(1, window).unwrap();
    device
        .register(
            2,
            Window {
                place: 0,
                length: 1,
                ..window
            },
        )
        .unwrap();
    device.post(0, PLACE + room, room).unwrap();
    device
}

/// Gives the event of a message's last segment.
fn event(case: Case, length: usize) -> Event {
    match case.opcode {
        0 => Event::None,
        opcode => Event::Send {
            start: PLACE as u32 + length.max(1) as u32,
            length: length as u32,
            opcode: opcode as u8,
            invalidated: [4, 6].contains(&opcode).then_some(case.stag as u32),
        },
    }
}

/// Writes a message, and has a device receive it: the store then has its bytes, and no other changed.
fn deliver(prng: &mut Prng, limit: u64, opcode: u64, length: usize) -> usize {
    let bytes = prng.bytes(length);
    let to = prng.below(1 << 40);
    let window = if opcode == 0 { 1 } else { 2 };
    let case = Case {
        limit,
        opcode,
        stag: window << 8 | 5,
        to,
        msn: 1,
    };
    let mut device = device(prng, to, length);
    let mut store = prng.bytes(STORE);
    let mut expected = store.clone();
    let place = PLACE as usize + if opcode == 0 { 0 } else { length.max(1) };
    expected[place..place + length].copy_from_slice(&bytes);
    let segments = segments(prng, case, &bytes);
    let last = segments.len() - 1;
    for (number, segment) in segments.iter().enumerate() {
        let frame = framed(segment);
        let event = match number == last {
            true => event(case, length),
            false => Event::None,
        };
        let taken = Received::Taken {
            total: frame.len(),
            event,
        };
        assert_eq!(device.receive(&mut store, 0, &frame), Ok(taken), "{case:?}");
    }
    assert!(store == expected, "{case:?}");
    segments.len()
}

/// Every opcode, at the sizes that matter and at any, of lengths from none to some thousands.
#[test]
fn messages_are_received() {
    let mut prng = Prng::new(20);
    let mut count = 0;
    for opcode in [0, 3, 4, 5, 6] {
        for limit in [19, 20, 33, 100, 1500, 2048, 8192] {
            for length in [
                0, 1, 2, 5, 19, 82, 86, 1482, 1486, 1487, 2030, 2034, 2048, 5000, 8174, 8178, 8192,
            ] {
                count += deliver(&mut prng, limit, opcode, length);
            }
        }
        for _ in 0..150 {
            let (limit, length) = (prng.between(19, 8192), prng.index(12_000));
            count += deliver(&mut prng, limit, opcode, length);
        }
    }
    assert!(count > 50_000, "{count} segments");
}

/// The example of document 004.
#[test]
fn the_example() {
    let bytes = [7; 2048];
    let mut message = Message::send(1500, 3, 1, 0, 2048).unwrap();
    let mut out = [0; 1500];
    assert_eq!(message.next(&bytes, &mut out), Ok(Some(18 + 1482)));
    assert_eq!(message.next(&bytes, &mut out), Ok(Some(18 + 566)));
    assert_eq!(message.next(&bytes, &mut out), Ok(None));
}

/// Any numbers are answered as by the second program, and bytes of another length are refused.
#[test]
fn any_numbers() {
    let mut prng = Prng::new(21);
    let ends = [
        0,
        3,
        4,
        14,
        18,
        19,
        8192,
        8193,
        1 << 32,
        (1 << 32) - 1,
        u64::MAX,
    ];
    let any = |prng: &mut Prng| match prng.below(4) {
        0 => prng.draw(),
        1 => prng.below(10),
        2 => prng.pick(&ends),
        _ => prng.pick(&ends).wrapping_sub(prng.below(3)),
    };
    let (mut begun, mut refused) = (0, 0);
    for _ in 0..100_000 {
        let limit = match prng.percent(70) {
            true => prng.between(19, 8192),
            false => any(&mut prng),
        };
        let length = prng.index(4);
        let bytes = prng.bytes(length);
        let case = Case {
            limit,
            opcode: if prng.percent(80) {
                prng.pick(&[0, 3, 4, 5, 6])
            } else {
                any(&mut prng)
            },
            stag: any(&mut prng),
            to: any(&mut prng),
            msn: any(&mut prng),
        };
        match (case.begin(length), case.begin_there(&bytes)) {
            (Ok(mut message), Ok(_)) => {
                begun += 1;
                let before = message.clone();
                let mut out = [0xA5; 40];
                let longer = vec![0; length + 1];
                assert_eq!(message.next(&longer, &mut out), Err(Error::Refused(1)));
                assert_eq!(message, before);
                segments(&mut prng, case, &bytes);
            }
            (here, there) => {
                refused += 1;
                let number = there.err().map(|refusal| refusal as u8);
                assert_eq!(here.err(), number.map(Error::Refused), "{case:?}");
            }
        }
    }
    assert!(begun > 10_000 && refused > 10_000, "{begun} and {refused}");
    for (limit, length, number) in [(40, 1 << 32, 1), (8193, 1 << 32, 1), (8193, 5, 12)] {
        let error = Err(Error::Refused(number));
        assert_eq!(Message::write(limit, 0, 0, length), error);
        assert_eq!(Message::send(limit, 3, 0, 0, length), error);
    }
}

/// A ULPDU that is too long, and an output that is too short.
#[test]
fn frames_refused() {
    let mut out = [0xA5; 8300];
    assert_eq!(write_fpdu(&[0; 8193], &mut out), Err(Error::Refused(12)));
    assert_eq!(
        write_fpdu(&[0; 8192], &mut out[..8199]),
        Err(Error::Refused(13))
    );
    assert_eq!(write_fpdu(&[], &mut out[..7]), Err(Error::Refused(13)));
    assert_eq!(out, [0xA5; 8300]);
    assert_eq!(write_fpdu(&[], &mut out[..8]), Ok(8));
    assert_eq!(write_fpdu(&[0; 8191], &mut out[..8200]), Ok(8200));
    assert_eq!(write_fpdu(&[0; 8192], &mut out[..8200]), Ok(8200));
}

/// Gives what the second program reads as the first FPDU of some bytes.
fn read_there(crc: bool, bytes: &[u8]) -> Result<FpduRead<'_>, Error> {
    match mpa::read_fpdu(crc, bytes) {
        mpa::Frame::Wait(total) => Ok(FpduRead::Wait(total)),
        mpa::Frame::Whole { total, ulpdu } => Ok(FpduRead::Taken { total, ulpdu }),
        mpa::Frame::Fault(fault) => Err(Error::Refused(fault.number)),
    }
}

/// FPDUs are read as the second program reads them: whole, cut short, with bytes after them, damaged, and over the limit.
#[test]
fn fpdus_are_read() {
    let mut prng = Prng::new(13);
    let mut told = [0; 4];
    for _ in 0..20_000 {
        let length = match prng.below(4) {
            0 => prng.below(8),
            1 => 8185 + prng.below(8),
            _ => prng.below(600),
        } as usize;
        let ulpdu: Vec<u8> = (0..length).map(|_| prng.below(256) as u8).collect();
        let mut bytes = vec![0; 8200 + 16];
        let total = write_fpdu(&ulpdu, &mut bytes).expect("it fits");
        let taken = match prng.below(3) {
            0 => prng.below(total as u64 + 1) as usize,
            1 => total,
            _ => total + prng.below(17) as usize,
        };
        bytes.truncate(taken.min(bytes.len()));
        if !bytes.is_empty() && prng.below(3) == 0 {
            let place = prng.below(bytes.len().min(total) as u64) as usize;
            bytes[place] ^= 1 << prng.below(8);
        }
        for crc in [false, true] {
            let read = read_fpdu(crc, &bytes);
            assert_eq!(read, read_there(crc, &bytes));
            let kind = match read {
                Ok(FpduRead::Wait(_)) => 0,
                Ok(FpduRead::Taken { .. }) => 1,
                Err(Error::Refused(20)) => 2,
                _ => 3,
            };
            told[kind] += 1;
        }
    }
    assert!(told.iter().all(|count| *count >= 100), "{told:?}");
}
