//! Messages of several segments, invalidation, reads and their limits.

use oracle::generate::draft::{frame, Draft, Sink};
use oracle::rdmap::{READ_REQUEST, TERMINATE};
use oracle::receive::{Answer, Event};
use oracle::refusal;
use oracle::state::{Condition, Device, Part};

/// A device with a store, whose stream 0 is open.
struct Bench {
    device: Device,
    store: Vec<u8>,
}

impl Bench {
    /// Opens a store of 64 bytes in four parts, window 2 of which has key 9, base 100 and 8 bytes.
    fn new(rights: u64) -> Self {
        let mut device = Device::default();
        let parts = [0, 16, 32, 48].map(|start| Part {
            start,
            end: start + 16,
        });
        device.open(64, parts).unwrap();
        device.open_stream(0, true).unwrap();
        device.register(2, 9, 100, 8, 8, rights).unwrap();
        let store = vec![0; 64];
        Bench { device, store }
    }

    /// Receives a drafted segment on stream 0.
    fn receive(&mut self, draft: &Draft) -> Answer {
        let bytes = frame(&draft.ulpdu(), 0);
        self.device.receive(&mut self.store, 0, &bytes)
    }

    /// Receives a segment that is refused, changing nothing but the stream's condition.
    fn refused(&mut self, draft: &Draft) -> refusal::Fault {
        let (mut device, store) = (self.device.clone(), self.store.clone());
        let Answer::Fault(fault) = self.receive(draft) else {
            panic!("not refused: {draft:?}");
        };
        device.streams[0].condition = Condition::Faulted(fault);
        assert!(self.device == device && self.store == store);
        fault
    }
}

/// Drafts a Send segment.
fn send(opcode: u8, mo: u32, last: bool, payload: &[u8]) -> Draft {
    Draft {
        last,
        mo,
        payload: payload.to_vec(),
        ..Draft::new(false, opcode)
    }
}

/// Drafts a Read Request of window 2.
fn read(msn: u32, to: u64, size: u32) -> Draft {
    let sink = Sink {
        stag: 7,
        to: 8,
        size,
    };
    Draft {
        qn: 1,
        msn,
        stag: 0x209,
        to,
        sink: Some(sink),
        ..Draft::new(false, READ_REQUEST)
    }
}

#[test]
fn send_in_three_segments_invalidates_at_the_last() {
    let mut bench = Bench::new(1);
    bench.device.post(0, 1, 3).unwrap();
    for draft in [send(4, 0, false, b""), send(4, 0, false, b"ab")] {
        let answer = bench.receive(&draft);
        assert!(matches!(
            answer,
            Answer::Taken {
                event: Event::None,
                ..
            }
        ));
    }
    let mut last = send(4, 2, true, b"c");
    last.stag = 0x209;
    let event = Event::Send {
        start: 1,
        length: 3,
        opcode: 4,
        invalidated: Some(0x209),
    };
    assert_eq!(bench.receive(&last), Answer::Taken { total: 28, event });
    assert_eq!(&bench.store[..5], b"\0abc\0");
    assert_eq!(bench.device.live(0), Ok(0));
    assert_eq!(bench.device.close_stream(0), Ok((0, 0)));
}

#[test]
fn opcode_is_kept_after_an_empty_first_segment() {
    let mut bench = Bench::new(1);
    bench.device.post(0, 1, 3).unwrap();
    bench.receive(&send(3, 0, false, b""));
    assert_eq!(bench.refused(&send(5, 0, true, b"x")), refusal::OPCODE);
    assert_eq!(bench.device.close_stream(0), Ok((1, 0)));
}

#[test]
fn invalidate_is_judged_before_placing() {
    for (stag, fault) in [
        (0x1009, refusal::INVALIDATE_OTHER_DOMAIN),
        (0x208, refusal::INVALIDATE_NOT_LIVE),
        (0x4009, refusal::INVALIDATE_NOT_LIVE),
    ] {
        let mut bench = Bench::new(1);
        bench.device.post(0, 1, 3).unwrap();
        let mut draft = send(6, 0, true, b"abc");
        draft.stag = stag;
        assert_eq!(bench.refused(&draft), fault);
    }
}

#[test]
fn lower_numbers_come_first() {
    let mut bench = Bench::new(1);
    let mut draft = send(0, 7, true, b"abcd");
    (draft.rdmap_version, draft.qn, draft.msn) = (0, 3, 2);
    let mut expect = |draft: &Draft, fault| {
        bench.device.close_stream(0).unwrap();
        bench.device.open_stream(0, true).unwrap();
        if fault != refusal::NO_BUFFER {
            bench.device.post(0, 1, 3).unwrap();
        }
        assert_eq!(bench.refused(draft), fault);
    };
    expect(&draft, refusal::QUEUE_NUMBER);
    draft.qn = 0;
    expect(&draft, refusal::MSN);
    draft.msn = 1;
    expect(&draft, refusal::NO_BUFFER);
    expect(&draft, refusal::MO);
    draft.mo = 0;
    expect(&draft, refusal::PAST_BUFFER);
    draft.payload.pop();
    expect(&draft, refusal::RDMAP_VERSION);
    draft.rdmap_version = 1;
    expect(&draft, refusal::OPCODE);
}

#[test]
fn eight_reads_wait_and_a_taken_one_frees_its_room() {
    let mut bench = Bench::new(2);
    for msn in 1..=8 {
        assert!(matches!(
            bench.receive(&read(msn, 100 + u64::from(msn), 0)),
            Answer::Taken { total: 52, .. }
        ));
    }
    assert_eq!(bench.device.take_read(0).unwrap().source_to, 101);
    bench.receive(&read(9, 100, 8));
    assert_eq!(bench.device.take_read(0).unwrap().source_to, 102);
    bench.receive(&read(10, 100, 8));
    assert_eq!(bench.refused(&read(11, 100, 8)), refusal::NO_BUFFER);
    assert_eq!(bench.device.close_stream(0), Ok((0, 8)));
}

#[test]
fn read_source_is_judged_of_a_byte_and_more() {
    let refused = |rights, draft: &Draft| Bench::new(rights).refused(draft);
    assert_eq!(refused(2, &read(1, 108, 1)), refusal::SOURCE_BOUNDS);
    assert_eq!(refused(2, &read(1, 99, 1)), refusal::SOURCE_BOUNDS);
    assert_eq!(refused(2, &read(1, 101, 8)), refusal::SOURCE_BOUNDS);
    assert_eq!(refused(2, &read(1, u64::MAX, 1)), refusal::SOURCE_BOUNDS);
    assert_eq!(refused(2, &read(1, u64::MAX, 2)), refusal::SOURCE_WRAP);
    assert_eq!(refused(1, &read(1, 100, 1)), refusal::NO_READ_RIGHT);
    let mut other = read(1, 100, 1);
    other.stag = 0x1209;
    assert_eq!(refused(2, &other), refusal::SOURCE_OTHER_DOMAIN);
    other.stag = 0x309;
    assert_eq!(refused(2, &other), refusal::SOURCE_NOT_LIVE);
}

#[test]
fn source_of_an_empty_read_is_not_looked_at() {
    for (rights, stag, to) in [
        (2, 0x209, 109),
        (2, 0x209, u64::MAX),
        (1, 0x209, 100),
        (2, 0x1209, 100),
        (2, 0x309, 100),
        (2, 0, 0),
    ] {
        let mut bench = Bench::new(rights);
        let empty = Draft {
            stag,
            ..read(1, to, 0)
        };
        let answer = bench.receive(&empty);
        assert!(matches!(answer, Answer::Taken { total: 52, .. }));
        assert_eq!(bench.device.take_read(0).unwrap().source_to, to);
    }
}

#[test]
fn malformed_read_and_terminate() {
    let mut short = read(1, 100, 0);
    short.cut = 1;
    assert_eq!(Bench::new(2).refused(&short), refusal::MALFORMED);
    let mut open = read(1, 100, 0);
    open.last = false;
    assert_eq!(Bench::new(2).refused(&open), refusal::MALFORMED);
    let mut long = read(1, 100, 0);
    long.payload.push(0);
    assert_eq!(Bench::new(2).refused(&long), refusal::PAST_BUFFER);
    let mut terminate = Draft::new(false, TERMINATE);
    (terminate.qn, terminate.payload) = (2, vec![0; 3]);
    assert_eq!(Bench::new(2).refused(&terminate), refusal::MALFORMED);
    terminate.payload = vec![0; 53];
    assert_eq!(Bench::new(2).refused(&terminate), refusal::PAST_BUFFER);
}
