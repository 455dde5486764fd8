//! Calls one by one: the scope paper's log, and a message of each kind.

use rnic::raw::{ROOM, ROOMS};
use rnic::{Closed, Device, Error, Event, Fault, Offered, ReadRequest, Reading, Received, Rooms};
use rnic::{StreamState, Window, RIGHT_READ, RIGHT_WRITE};

/// The Write of the paper's log.
pub const WRITE: [u8; 24] = [
    0x00, 0x12, 0xC1, 0x40, 0x00, 0x00, 0x11, 0x05, 0x00, 0x00, 0x00, 0x00, 0x00, 0x00, 0x10, 0x00,
    0xDE, 0xAD, 0xBE, 0xEF, 0x00, 0x00, 0x00, 0x00,
];

/// Opens the device of the paper's log, with the window's rights given.
fn night(rights: u64) -> (Device, Vec<u8>) {
    let mut device = Device::new();
    let parts = [0..1024, 1024..2048, 2048..3072, 3072..4096];
    device.open(4096, parts).unwrap();
    let window = Window {
        key: 5,
        base: 4096,
        length: 4,
        place: 1024,
        rights,
    };
    device.register(17, window).unwrap();
    device.open_stream(4, false).unwrap();
    (device, vec![0; 4096])
}

/// Gives a Taken without an event.
fn taken(total: usize) -> Result<Received, Error> {
    Ok(Received::Taken {
        total,
        event: Event::None,
    })
}

/// Gives an ended stream's answer.
fn ended(number: u8, layer: u8, etype: u8, code: u8) -> Result<Received, Error> {
    Ok(Received::Ended(Fault {
        number,
        layer,
        etype,
        code,
    }))
}

/// Frames an untagged segment, whose CRC is not looked at.
fn untagged(opcode: u8, qn: u8, payload: &[u8]) -> Vec<u8> {
    let mut ulpdu = vec![0x41, 0x40 | opcode, 0, 0, 0, 0];
    ulpdu.extend([0, 0, 0, qn, 0, 0, 0, 1, 0, 0, 0, 0]);
    ulpdu.extend(payload);
    let mut frame = (ulpdu.len() as u16).to_be_bytes().to_vec();
    frame.extend(ulpdu);
    frame.resize(frame.len().next_multiple_of(4) + 4, 0);
    frame
}

#[test]
fn a_write_and_its_neighbours() {
    let (mut device, mut store) = night(RIGHT_WRITE);
    let mut receive = |bytes: &[u8]| device.receive(&mut store, 4, bytes);
    assert_eq!(receive(&WRITE[..1]), Ok(Received::Wait(2)));
    assert_eq!(receive(&WRITE[..23]), Ok(Received::Wait(24)));
    assert_eq!(receive(&WRITE), taken(24));
    let mut outside = WRITE;
    outside[15] = 1;
    assert_eq!(receive(&outside), ended(27, 1, 1, 1));
    assert_eq!(receive(&WRITE), Err(Error::Refused(5)));
    let mut expected = vec![0; 4096];
    expected[1024..1028].copy_from_slice(&[0xDE, 0xAD, 0xBE, 0xEF]);
    assert_eq!(store, expected);
}

#[test]
fn rights_keys_and_lent_stores() {
    let (mut device, mut store) = night(RIGHT_READ);
    let lent = device.receive(&mut store[..4095], 4, &WRITE);
    assert_eq!(lent, Err(Error::Refused(2)));
    assert_eq!(device.receive(&mut store, 4, &WRITE), ended(35, 0, 1, 2));
    let (mut device, _) = night(RIGHT_WRITE);
    device.open_stream(0, false).unwrap();
    assert_eq!(device.receive(&mut store, 0, &WRITE), ended(24, 1, 1, 2));
    assert_eq!(device.live_count(1), Ok(1));
    assert_eq!(device.lowest_free(1), Ok(0));
    assert_eq!(device.drop_window(17), Ok(()));
    assert_eq!(device.drop_window(17), Err(Error::Refused(7)));
    assert_eq!(device.receive(&mut store, 4, &WRITE), ended(25, 1, 1, 0));
    assert_eq!(store, vec![0; 4096]);
}

#[test]
fn two_writers_on_one_spot() {
    let (mut device, _) = night(RIGHT_WRITE);
    let mut register = |place, rights| {
        let (key, base, length) = (5, 4096, 4);
        let window = Window {
            key,
            base,
            length,
            place,
            rights,
        };
        device.register(18, window)
    };
    assert_eq!(register(1027, RIGHT_WRITE), Err(Error::Refused(19)));
    assert_eq!(register(1028, RIGHT_WRITE | RIGHT_READ), Ok(()));
    assert_eq!(device.post(4, 1031, 2), Err(Error::Refused(19)));
    assert_eq!(device.post(4, 1032, 2), Ok(()));
    assert_eq!(device.post(4, 1033, 1), Err(Error::Refused(19)));
    assert_eq!(device.live_count(1), Ok(2));
    let (buffers, reads) = (1, 0);
    assert_eq!(device.close_stream(4), Ok(Closed { buffers, reads }));
}

#[test]
fn sends_reads_and_a_terminate() {
    let (mut device, mut store) = night(RIGHT_READ);
    assert_eq!(device.take(4), Err(Error::Refused(11)));
    assert_eq!(device.post(4, 1100, 5), Ok(()));
    assert_eq!(device.post(4, 1200, 5), Ok(()));
    let event = Event::Send {
        start: 1100,
        length: 5,
        opcode: 3,
        invalidated: None,
    };
    let sent = device.receive(&mut store, 4, &untagged(3, 0, b"hello"));
    assert_eq!(sent, Ok(Received::Taken { total: 32, event }));
    assert_eq!(store[1100..1105], *b"hello");
    let mut request = [0; 28];
    (request[3], request[11], request[15]) = (7, 8, 4);
    (request[18], request[19], request[26]) = (0x11, 5, 0x10);
    let asked = device.receive(&mut store, 4, &untagged(1, 1, &request));
    assert_eq!(asked, taken(52));
    let mut other = device.clone();
    let read = ReadRequest {
        sink_stag: 7,
        sink_to: 8,
        size: 4,
        source_stag: 0x1105,
        source_to: 4096,
    };
    assert_eq!(device.take(4), Ok(read));
    let (layer, etype, code) = (1, 2, 0x34);
    let event = Event::Terminate { layer, etype, code };
    let gone = device.receive(&mut store, 4, &untagged(7, 2, &[0x12, 0x34, 0, 0]));
    assert_eq!(gone, Ok(Received::Taken { total: 28, event }));
    let (buffers, reads) = (1, 0);
    assert_eq!(device.close_stream(4), Ok(Closed { buffers, reads }));
    // A copy is a device of its own: its read still waits.
    let (buffers, reads) = (1, 1);
    assert_eq!(other.close_stream(4), Ok(Closed { buffers, reads }));
}

/// A stream's state: closed, open, ended by a refusal, ended by a Terminate; what waits on it is what closing counts.
#[test]
fn states_of_a_stream() {
    let (mut device, mut store) = night(RIGHT_READ);
    for stream in [16, u64::MAX] {
        assert_eq!(device.state(stream), Err(Error::Refused(1)));
    }
    assert_eq!(device.state(5), Ok(StreamState::Closed));
    let open = |buffers, reads| Ok(StreamState::Open { buffers, reads });
    assert_eq!(device.state(4), open(0, 0));
    for start in [1100, 1200] {
        device.post(4, start, 5).unwrap();
    }
    let mut request = [0; 28];
    (request[15], request[18], request[19], request[26]) = (4, 0x11, 5, 0x10);
    let asked = device.receive(&mut store, 4, &untagged(1, 1, &request));
    assert_eq!((asked, device.state(4)), (taken(52), open(2, 1)));
    let mut first = untagged(3, 0, b"hel");
    first[2] = 0x01;
    let started = device.receive(&mut store, 4, &first);
    assert_eq!((started, device.state(4)), (taken(28), open(2, 1)));

    let mut terminated = device.clone();
    let (buffers, reads) = (2, 1);
    let gone = terminated.receive(&mut store, 4, &untagged(7, 2, &[0x12, 0x34, 0, 0]));
    assert!(matches!(gone, Ok(Received::Taken { .. })));
    let state = StreamState::Terminated { buffers, reads };
    assert_eq!(terminated.state(4), Ok(state));

    let Ok(Received::Ended(fault)) = device.receive(&mut store, 4, &WRITE) else {
        panic!("the window cannot be written");
    };
    let state = StreamState::Ended {
        fault,
        buffers,
        reads,
    };
    assert_eq!((fault.number, device.state(4)), (35, Ok(state)));
    assert_eq!(device.state(0), Ok(StreamState::Closed));
    for mut device in [device, terminated] {
        assert_eq!(device.close_stream(4), Ok(Closed { buffers, reads }));
        assert_eq!(device.state(4), Ok(StreamState::Closed));
    }
}

/// The bytes of two Writes, one of them in pieces, are a first sample of 8; then nothing is placed, and the level falls by an
/// eighth at each tick.
#[test]
fn a_gauge() {
    let (mut device, mut store) = night(RIGHT_WRITE);
    let mut rooms = Rooms::new();
    assert_eq!(device.receive(&mut store, 4, &WRITE), taken(24));
    for (piece, answer) in [
        (&WRITE[..20], kept(20)),
        (&WRITE[20..], completed(4, 24)),
        (&WRITE[..20], kept(20)),
    ] {
        assert_eq!(device.offer(&mut store, &mut rooms, 4, piece), answer);
    }
    assert_eq!(device.reading(1), Ok(Reading::Quiet));
    let peak = 8.0;
    let mut level = peak;
    for _ in 0..20 {
        assert_eq!(device.tick(1), Ok(()));
        let reading = match level {
            _ if level < 1.0 => Reading::Quiet,
            _ if level < 4.0 => Reading::Falling { level, peak },
            _ => Reading::Steady(level),
        };
        assert_eq!(device.reading(1), Ok(reading));
        level -= level / 8.0;
    }
    assert_eq!(device.reading(0), Ok(Reading::Quiet));
    for domain in [4, u64::MAX] {
        assert_eq!(device.tick(domain), Err(Error::Refused(1)));
        assert_eq!(device.reading(domain), Err(Error::Refused(1)));
    }
}

/// Gives an offer's answer that keeps so many bytes.
fn kept(taken: usize) -> Result<Offered, Error> {
    Ok(Offered::Kept { taken })
}

/// Gives an offer's answer that took an FPDU without an event.
fn completed(taken: usize, total: usize) -> Result<Offered, Error> {
    Ok(Offered::Taken {
        taken,
        total,
        event: Event::None,
    })
}

#[test]
fn a_write_in_pieces() {
    let (mut device, mut store) = night(RIGHT_WRITE);
    let mut rooms = Rooms::new();
    let two = [WRITE, WRITE].concat();
    let mut offer = |bytes: &[u8]| device.offer(&mut store, &mut rooms, 4, bytes);
    assert_eq!(offer(&[]), kept(0));
    assert_eq!(offer(&two[..1]), kept(1));
    assert_eq!(offer(&[]), kept(0));
    assert_eq!(offer(&two[1..20]), kept(19));
    assert_eq!(offer(&two[20..]), completed(4, 24));
    assert_eq!(offer(&two[24..]), completed(24, 24));
    assert_eq!(offer(&two[..3]), kept(3));
    assert_eq!(rooms[4 * ROOM..4 * ROOM + 3], WRITE[..3]);
    assert_eq!(store[1024..1028], [0xDE, 0xAD, 0xBE, 0xEF]);
    assert_eq!(
        [3, 4, 5, 16].map(|stream| device.held(stream)),
        [0, 3, 0, 0]
    );
}

#[test]
fn offers_refused() {
    let (mut device, mut store) = night(RIGHT_WRITE);
    let mut rooms = Rooms::default();
    let refused = |number| Err(Error::Refused(number));
    let kept_first = device.offer(&mut store, &mut rooms, 4, &WRITE[..23]);
    assert_eq!(kept_first, kept(23));
    assert_eq!(
        device.receive(&mut store, 4, &WRITE),
        Err(Error::Refused(16))
    );
    let before = (device.clone(), rooms.to_vec());
    let mut lent = [&rooms[..], &[0; 1]].concat();
    for (stream, lent_store, lent_rooms, number) in [
        (16, 0, 0, 1),
        (4, 4095, ROOMS, 2),
        (4, 4096, ROOMS - 1, 2),
        (4, 4096, ROOMS + 1, 2),
        (0, 4096, 0, 2),
        (0, 4096, ROOMS, 3),
    ] {
        let (store, rooms) = (&mut store[..lent_store], &mut lent[..lent_rooms]);
        let answer = device.offer(store, rooms, stream, &WRITE[23..]);
        assert_eq!(answer, refused(number), "{stream}");
        assert_eq!(device.held(4), 23);
    }
    assert!(before.0 == device && before.1 == lent[..ROOMS]);
    let answer = device.offer(&mut store, &mut rooms, 4, &WRITE[23..]);
    assert_eq!(answer, completed(1, 24));
    assert_eq!(device.receive(&mut store, 4, &WRITE), taken(24));
}

#[test]
fn what_ends_a_stream_empties_it() {
    let (mut device, mut store) = night(RIGHT_WRITE);
    let mut rooms = Rooms::new();
    let mut outside = WRITE;
    outside[15] = 1;
    let terminate = untagged(7, 2, &[0x12, 0x34, 0, 0]);
    let long = [0x20, 1, 0, 0];
    for (bytes, cut, number) in [(&outside[..], 23, 27), (&terminate, 9, 0), (&long, 1, 20)] {
        let answer = device.offer(&mut store, &mut rooms, 4, &bytes[..cut]);
        assert_eq!(answer, kept(cut));
        let answer = device.offer(&mut store, &mut rooms, 4, &bytes[cut..]);
        match answer.unwrap() {
            Offered::Ended(fault) => assert_eq!(fault.number, number),
            Offered::Taken { taken, event, .. } => {
                let (layer, etype, code) = (1, 2, 0x34);
                assert_eq!(event, Event::Terminate { layer, etype, code });
                assert_eq!((taken, number), (bytes.len() - cut, 0));
            }
            kept => panic!("{kept:?}"),
        }
        for bytes in [&WRITE[..], &WRITE[..1], &[]] {
            let answer = device.offer(&mut store, &mut rooms, 4, bytes);
            assert_eq!(answer, Err(Error::Refused(5)));
            assert_eq!(device.held(4), 0);
        }
        device.close_stream(4).unwrap();
        device.open_stream(4, false).unwrap();
        assert_eq!(
            device.offer(&mut store, &mut rooms, 4, &WRITE),
            completed(24, 24)
        );
    }
}
