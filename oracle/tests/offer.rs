//! Offers: what each call takes and holds, and what empties a stream's held bytes.

use oracle::command::MAX_LINE;
use oracle::generate::draft::{frame, Draft};
use oracle::hex;
use oracle::mpa::MAX_FPDU;
use oracle::offer::Offered;
use oracle::rdmap::{Terminate, SEND, TERMINATE, WRITE};
use oracle::receive::{Answer, Event};
use oracle::refusal::{self, Fault, Refusal};
use oracle::script::Interpreter;
use oracle::state::{Condition, Device, Part, HELD, STREAMS};

/// Bytes of the store, of which each domain has a quarter.
const STORE: u64 = 65_536;

/// Where the window and the buffer stand.
const WINDOW: usize = 16_384;
const BUFFER: usize = 24_600;

/// A device with a store, whose streams are all open with the CRC on.
struct Bench {
    device: Device,
    store: Vec<u8>,
}

impl Bench {
    /// Opens the streams, a window of 8,178 bytes at tagged offset 0 for domain 1 (STag 0x1105), and a buffer on stream 4.
    fn new() -> Self {
        let mut device = Device::default();
        let parts = [0, 1, 2, 3].map(|domain| Part {
            start: domain * STORE / 4,
            end: (domain + 1) * STORE / 4,
        });
        device.open(STORE, parts).unwrap();
        for stream in 0..STREAMS as u64 {
            device.open_stream(stream, true).unwrap();
        }
        device.register(17, 5, 0, 8178, WINDOW as u64, 1).unwrap();
        device.post(4, BUFFER as u64, 5).unwrap();
        let store = vec![0; STORE as usize];
        Bench { device, store }
    }

    /// Offers bytes to a stream.
    fn offer(&mut self, stream: u64, bytes: &[u8]) -> Offered {
        self.device
            .offer(&mut self.store, HELD as u64, stream, bytes)
    }

    /// Gives how many bytes a stream holds.
    fn held(&self, stream: u64) -> usize {
        self.device.held(stream).unwrap()
    }

    /// Offers bytes that are refused, and gives the fault: nothing but the stream's condition and held bytes changes.
    fn refused(&mut self, stream: u64, bytes: &[u8]) -> Fault {
        let (mut device, store) = (self.device.clone(), self.store.clone());
        let Offered::Fault(fault) = self.offer(stream, bytes) else {
            panic!("not refused");
        };
        device.streams[stream as usize].condition = Condition::Faulted(fault);
        device.streams[stream as usize].held.clear();
        assert!(self.device == device && self.store == store);
        fault
    }
}

/// Gives the FPDU of a Write into the window.
fn write(payload: &[u8]) -> Vec<u8> {
    let draft = Draft {
        stag: 0x1105,
        payload: payload.to_vec(),
        ..Draft::new(true, WRITE)
    };
    frame(&draft.ulpdu(), 0)
}

/// Gives an untagged FPDU of a queue.
fn untagged(opcode: u8, qn: u32, payload: &[u8]) -> Vec<u8> {
    let draft = Draft {
        qn,
        payload: payload.to_vec(),
        ..Draft::new(false, opcode)
    };
    frame(&draft.ulpdu(), 0xA5)
}

/// What an offer answers that completes an FPDU without an event.
fn taken(took: usize, total: usize) -> Offered {
    let event = Event::None;
    Offered::Taken { took, total, event }
}

#[test]
fn rooms() {
    assert_eq!((MAX_FPDU, HELD), (8200, 131_200));
}

#[test]
fn cut_at_every_place() {
    let bytes = write(b"payload");
    let total = bytes.len();
    for at in 0..=total {
        let mut bench = Bench::new();
        let (first, second) = bytes.split_at(at);
        if at < total {
            assert_eq!(bench.offer(4, first), Offered::Held { took: at });
            assert_eq!(bench.held(4), at);
            assert!(bench.store.iter().all(|&byte| byte == 0));
            assert_eq!(bench.offer(4, second), taken(total - at, total));
        } else {
            assert_eq!(bench.offer(4, first), taken(total, total));
            assert_eq!(bench.offer(4, second), Offered::Held { took: 0 });
        }
        assert_eq!(bench.held(4), 0);
        assert_eq!(&bench.store[WINDOW..WINDOW + 8], b"payload\0");
    }
}

#[test]
fn byte_by_byte_with_empty_offers_between() {
    let mut bench = Bench::new();
    let bytes = untagged(SEND, 0, b"HELLO");
    let (last, front) = bytes.split_last().unwrap();
    for byte in front {
        assert_eq!(bench.offer(4, &[]), Offered::Held { took: 0 });
        assert_eq!(bench.offer(4, &[*byte]), Offered::Held { took: 1 });
    }
    let event = Event::Send {
        start: BUFFER as u64,
        length: 5,
        opcode: SEND,
        invalidated: None,
    };
    let answer = Offered::Taken {
        took: 1,
        total: bytes.len(),
        event,
    };
    assert_eq!(bench.offer(4, &[*last]), answer);
    assert_eq!(&bench.store[BUFFER..BUFFER + 5], b"HELLO");
}

#[test]
fn the_next_fpdu_is_not_taken() {
    let mut bench = Bench::new();
    let (one, two) = (write(b"one"), write(b"two"));
    let total = one.len();
    let both = [&one[..], &two].concat();
    assert_eq!(bench.offer(4, &both), taken(total, total));
    assert_eq!(
        (bench.held(4), &bench.store[WINDOW..WINDOW + 3]),
        (0, &b"one"[..])
    );
    assert_eq!(bench.offer(4, &both[total..]), taken(total, total));
    assert_eq!(bench.offer(4, &both[..9]), Offered::Held { took: 9 });
    assert_eq!(bench.offer(4, &both[9..]), taken(total - 9, total));
    assert_eq!(
        (bench.held(4), &bench.store[WINDOW..WINDOW + 3]),
        (0, &b"one"[..])
    );
}

#[test]
fn the_longest_fpdu_on_every_stream() {
    let mut bench = Bench::new();
    let bytes = write(&[7; 8178]);
    assert_eq!(bytes.len(), MAX_FPDU);
    let (last, front) = bytes.split_last().unwrap();
    for stream in 0..STREAMS as u64 {
        let answer = bench.offer(stream, front);
        assert_eq!(answer, Offered::Held { took: 8199 });
    }
    for stream in (0..STREAMS as u64).rev() {
        assert_eq!(bench.held(stream), 8199);
        match stream / 4 {
            1 => assert_eq!(bench.offer(stream, &[*last]), taken(1, MAX_FPDU)),
            _ => assert_eq!(bench.refused(stream, &[*last]), refusal::OTHER_DOMAIN),
        }
        assert_eq!(bench.held(stream), 0);
    }
}

#[test]
fn too_long_with_the_second_byte() {
    for length in [8193u16, 0x2100, 0xFFFF] {
        let [high, low] = length.to_be_bytes();
        let mut bench = Bench::new();
        assert_eq!(bench.refused(4, &[high, low]), refusal::ULPDU_TOO_LONG);
        assert_eq!(bench.offer(5, &[high]), Offered::Held { took: 1 });
        assert_eq!(bench.refused(5, &[low, 1, 2]), refusal::ULPDU_TOO_LONG);
    }
    for (stream, length) in [(4, 2048u16), (5, 2049), (6, 8191), (7, 8192)] {
        let mut bench = Bench::new();
        for byte in length.to_be_bytes() {
            assert_eq!(bench.offer(stream, &[byte]), Offered::Held { took: 1 });
        }
    }
}

#[test]
fn a_refusal_empties_and_later_bytes_are_not_kept() {
    let good = write(b"x");
    let mut wrong = good.clone();
    wrong[21] ^= 1;
    for cut in 0..wrong.len() {
        let mut bench = Bench::new();
        bench.offer(4, &wrong[..cut]);
        assert_eq!(bench.refused(4, &wrong[cut..]), refusal::WRONG_CRC);
        for bytes in [&good[..], &good[..3], &[]] {
            assert_eq!(bench.offer(4, bytes), Offered::Refused(Refusal::Ended));
            assert_eq!(bench.held(4), 0);
        }
        assert_eq!(bench.device.close_stream(4), Ok((1, 0)));
        bench.device.open_stream(4, true).unwrap();
        assert_eq!(bench.offer(4, &good), taken(good.len(), good.len()));
    }
}

#[test]
fn a_terminate_empties() {
    let mut bench = Bench::new();
    let bytes = untagged(TERMINATE, 2, &[0x12, 5, 0, 0]);
    let more = [&bytes[20..], &write(b"x")].concat();
    assert_eq!(bench.offer(4, &bytes[..20]), Offered::Held { took: 20 });
    let terminate = Terminate {
        layer: 1,
        etype: 2,
        code: 5,
    };
    let answer = Offered::Taken {
        took: 8,
        total: 28,
        event: Event::Terminate(terminate),
    };
    assert_eq!(bench.offer(4, &more), answer);
    assert_eq!(bench.offer(4, &more[8..]), Offered::Refused(Refusal::Ended));
    assert_eq!(bench.held(4), 0);
}

#[test]
fn close_and_open_empty() {
    let mut bench = Bench::new();
    for stream in 4..7 {
        bench.offer(stream, &[0, 18]);
    }
    assert_eq!(bench.device.close_stream(4), Ok((1, 0)));
    assert_eq!([4, 5, 6].map(|stream| bench.held(stream)), [0, 2, 2]);
    assert_eq!(bench.offer(4, &[0]), Offered::Refused(Refusal::NotOpen));
    let part = Part { start: 0, end: 0 };
    assert!(bench.device.open(0, [part; 4]).is_err());
    assert_eq!([4, 5, 6].map(|stream| bench.held(stream)), [0; 3]);
    assert_eq!(bench.device.held(16), None);
    assert_eq!(bench.device.held(u64::MAX), None);
}

#[test]
fn receive_is_refused_while_its_own_stream_holds_bytes() {
    let mut bench = Bench::new();
    let bytes = write(b"x");
    bench.offer(4, &bytes[..1]);
    for piece in [&bytes[..], &bytes[1..], &[0x20, 1], &[]] {
        let (device, store) = (bench.device.clone(), bench.store.clone());
        let answer = bench.device.receive(&mut bench.store, 4, piece);
        assert_eq!(answer, Answer::Refused(Refusal::Holds));
        assert!(bench.device == device && bench.store == store);
    }
    let answer = bench.device.receive(&mut bench.store, 5, &bytes);
    assert!(matches!(answer, Answer::Taken { .. }));
    bench.offer(4, &bytes[1..]);
    let answer = bench.device.receive(&mut bench.store, 4, &bytes);
    assert!(matches!(answer, Answer::Taken { .. }));
    let answer = bench.device.receive(&mut bench.store, 4, &bytes[..9]);
    assert_eq!((answer, bench.held(4)), (Answer::Wait(bytes.len()), 0));
}

#[test]
fn local_refusals_in_their_order_change_nothing() {
    let mut bench = Bench::new();
    bench.device.close_stream(5).unwrap();
    bench.offer(6, &[0x20, 1]);
    bench.offer(4, &[0, 18, 0xC1]);
    let (held, short) = (HELD as u64, STORE as usize - 1);
    for (stream, lent, held, refusal) in [
        (16, short, 0, Refusal::OutOfRange),
        (u64::MAX, STORE as usize, held, Refusal::OutOfRange),
        (4, short, held, Refusal::LentLength),
        (4, STORE as usize, held - 1, Refusal::LentLength),
        (4, STORE as usize, held + 1, Refusal::LentLength),
        (5, STORE as usize, 0, Refusal::LentLength),
        (6, 0, held, Refusal::LentLength),
        (5, STORE as usize, held, Refusal::NotOpen),
        (6, STORE as usize, held, Refusal::Ended),
    ] {
        let (device, store) = (bench.device.clone(), bench.store.clone());
        let lent = &mut bench.store[..lent];
        let answer = bench.device.offer(lent, held, stream, &[0x20, 1]);
        assert_eq!(answer, Offered::Refused(refusal));
        assert!(bench.device == device && bench.store == store);
    }
}

#[test]
fn a_line_as_long_as_may_be() {
    let mut interpreter = Interpreter::default();
    interpreter.run_line(b"stream 0 off");
    let mut line = b"offer 0 000ec14000000000000000000000000000000000".to_vec();
    line.resize(MAX_LINE, b'7');
    let answer = interpreter.run_line(&line);
    assert_eq!(answer.as_deref(), Some("took 20 taken 20"));
    line.push(b' ');
    assert_eq!(interpreter.run_line(&line).as_deref(), Some("bad"));
    let front = hex::encode(&[0x20, 0, 7]);
    for (held, answer) in [
        (32_896, "refused 2"),
        (131_199, "refused 2"),
        (131_201, "bad"),
    ] {
        let given = interpreter.run_line(format!("offer 0 {front} 0 {held}").as_bytes());
        assert_eq!(given.as_deref(), Some(answer));
    }
    let answer = interpreter.run_line(format!("offer 0 {front} 0 131200").as_bytes());
    assert_eq!(answer.as_deref(), Some("took 3"));
    assert_eq!(interpreter.run_line(b"held 0").as_deref(), Some("held 3"));
}
