//! Captured streams: the startup frame is left out, and the STags that name our windows are made ours.

use oracle::capture::{Capture, KEY};
use oracle::generate::draft::{frame, Draft, Sink};
use oracle::hex;
use oracle::mpa::{read_fpdu, Frame};
use oracle::rdmap::{READ_REQUEST, SEND_INVALIDATE, WRITE};

/// A startup request of revision 2 with S and C set, and 4 bytes of private data.
const STARTUP: &str = "4d504120494420526571204672616d655002000400010001";

/// Gives the FPDUs of a stream: Writes, one of them empty, a Read Request and a Send with Invalidate, with these STags.
fn stream(stags: [u32; 3], source: u32) -> Vec<u8> {
    let write = |to, payload: &[u8]| Draft {
        stag: stags[0],
        to,
        payload: payload.to_vec(),
        ..Draft::new(true, WRITE)
    };
    let empty = Draft {
        stag: stags[1],
        ..Draft::new(true, WRITE)
    };
    let sink = Sink {
        stag: 0xABCD_EF00,
        to: 0,
        size: 6,
    };
    // A draft writes its source STag into both fields; the header's is not looked at.
    let read = Draft {
        qn: 1,
        stag: source,
        to: 104,
        sink: Some(sink),
        ..Draft::new(false, READ_REQUEST)
    };
    let send = Draft {
        stag: stags[2],
        ..Draft::new(false, SEND_INVALIDATE)
    };
    let drafts = [write(100, b"abc"), write(90, b"d"), empty, read, send];
    let mut frames: Vec<u8> = Vec::new();
    for draft in drafts {
        frames.extend(frame(&draft.ulpdu(), 0xA5));
    }
    frames
}

#[test]
fn stags_become_ours() {
    let bytes = stream([0xABCD_EF00, 0x0000_0001, 0x7777_7755], 0xABCD_EF00);
    let text = format!(
        "{STARTUP}{}\n{}\n",
        hex::encode(&bytes[..20]),
        hex::encode(&bytes[20..])
    );
    let capture = Capture::read(&text, 16).unwrap();
    assert!(capture.crc);
    assert_eq!(capture.ends, [20, bytes.len()]);
    let ours = |window: u32, low: u8| window << 8 | u32::from(KEY ^ low);
    let mut expected = stream([ours(16, 0), 1, ours(17, 0x55)], ours(16, 0));
    // The Read Request's own header keeps its STag.
    let header = 24 + 24 + 20 + 4;
    expected[header..header + 4].copy_from_slice(&[0xAB, 0xCD, 0xEF, 0]);
    let read = capture.frames()[3].clone();
    assert_eq!(capture.bytes[..read.end - 4], expected[..read.end - 4]);
    assert_eq!(capture.bytes[read.end..], expected[read.end..]);
    for frame in capture.frames() {
        let whole = read_fpdu(true, &capture.bytes[frame]);
        assert!(matches!(whole, Frame::Whole { .. }));
    }
    let [written, invalidated] = &capture.regions[..] else {
        panic!("{} regions", capture.regions.len());
    };
    assert_eq!((written.offsets.clone(), written.rights), (90..110, 3));
    assert_eq!((invalidated.name, invalidated.rights), (0x77_7777, 2));
}

#[test]
fn what_is_no_capture() {
    for text in ["", "00", "0", &STARTUP[..40], "x"] {
        assert!(Capture::read(text, 16).is_none(), "{text}");
    }
    let empty = Capture::read(STARTUP, 16).unwrap();
    assert!(empty.bytes.is_empty() && empty.ends.is_empty());
}
