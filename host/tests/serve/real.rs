//! Real bytes: streams of Linux's software iWARP, played against the program piece by piece as TCP cut them, with the same calls
//! made on the second program's device.

use std::fs;
use std::io::Write;
use std::thread;
use std::time::Duration;

use oracle::agree::{respond, Own};
use oracle::capture::{Capture, KEY};
use oracle::hex;
use oracle::offer::Offered;
use oracle::rdmap;
use oracle::receive::Event;
use oracle::startup::{Role, Startup};
use oracle::startup2::{read_startup2, Startup2};
use oracle::state::{Device, Part, HELD};

use crate::support::{finish, greet, reply, Server};

/// The stream that the connection gets: the first of domain 1.
const STREAM: u64 = 4;
/// The first window of that domain.
const WINDOW: u32 = 16;
/// How many buffers a stream has.
const BUFFERS: u64 = 8;
/// What the configuration says of this side: the deepest that siw asks for is 128.
const OWN: Own = Own {
    ird: 128,
    ord: 128,
    kinds: 7,
};

/// The streams, and the refusal at which each stops, if one does, with how many FPDUs were taken before.
const STREAMS: [(&str, Option<(u8, usize)>); 13] = [
    // Read Responses are not expected yet (request [7]): they stop there, with 34.
    ("rping-1500", Some((34, 1))),
    ("p2p-rping-1500", Some((34, 2))),
    ("rev1-rping-1500", None),
    ("crc-drill-all-1500", None),
    ("drill-empty", None),
    // A window covers all that a stream names, so that what was out of bounds at siw is inside here.
    ("drill-oob-write", None),
    // A fault that was made at siw, too: a wrong key.
    ("drill-badkey-read", Some((38, 0))),
    ("send-4096-1500.1", None),
    ("send-4096-1500.2", None),
    ("write-4096-1500.1", None),
    ("write-4096-1500.2", None),
    ("read-4096-1500.1", None),
    ("read-4096-1500.2", None),
];

/// The second program's box, with what it says in the program's words.
struct Second {
    device: Device,
    store: Vec<u8>,
    buffer: u64,
    said: Vec<String>,
    fpdus: usize,
    ended: Option<u8>,
}

impl Second {
    /// Offers a piece, with a buffer posted again for each message, and reads taken as they come.
    fn offer(&mut self, piece: &[u8]) {
        let mut rest = piece;
        while !rest.is_empty() && self.ended.is_none() {
            let held = HELD as u64;
            match self.device.offer(&mut self.store, held, STREAM, rest) {
                Offered::Held { took } => rest = &rest[took..],
                Offered::Taken { took, event, .. } => {
                    self.fpdus += 1;
                    rest = &rest[took..];
                    self.note(event);
                }
                Offered::Fault(fault) => {
                    let (layer, etype, code) = (fault.layer, fault.etype, fault.code);
                    self.say(format!(
                        "refused {} {layer}/{etype}/{code:02X}",
                        fault.number
                    ));
                    self.ended = Some(fault.number);
                }
                Offered::Refused(refusal) => panic!("refused {refusal}"),
            }
        }
    }

    /// Notes an event.
    fn note(&mut self, event: Event) {
        match event {
            Event::None => {
                while let Ok(read) = self.device.take_read(STREAM) {
                    let (size, stag) = (read.size, read.source_stag);
                    self.say(format!("read {size} {stag:#x} {}", read.source_to));
                }
            }
            Event::Send {
                start,
                length,
                opcode,
                invalidated,
            } => {
                self.say(format!("send {opcode} {length} {start}"));
                if let Some(stag) = invalidated {
                    self.say(format!("invalidated {stag:#x}"));
                }
                self.device.post(STREAM, start, self.buffer).unwrap();
            }
            Event::Terminate(_) => panic!("no client of these terminates"),
        }
    }

    fn say(&mut self, words: String) {
        self.said.push(words);
    }
}

/// Gives what a line of the program's log says, in the same form; other lines are passed over.
fn said(line: &str) -> Option<String> {
    let (_, words) = line.split_once("#1 ")?;
    let number =
        |word: Option<&str>| word.map(|word| word.trim_end_matches([':', ',']).to_string());
    if words.starts_with("message ") {
        let (_, send) = words.split_once(": ")?;
        let (name, rest) = send.split_once(" of ")?;
        let opcode = match name {
            "Send" => 3,
            "Send with Invalidate" => 4,
            "Send with Solicited Event" => 5,
            "Send with Solicited Event and Invalidate" => 6,
            _ => panic!("{line}"),
        };
        let mut rest = rest.split(' ');
        let length = number(rest.next())?;
        return Some(format!(
            "send {opcode} {length} {}",
            number(rest.next_back())?
        ));
    }
    if let Some(rest) = words.strip_prefix("asks to read ") {
        let rest: Vec<&str> = rest.split(' ').collect();
        let (size, stag) = (rest[0], rest[4]);
        return Some(format!(
            "read {size} {stag} {}",
            number(rest.get(6).copied())?
        ));
    }
    if let Some(stag) = words.strip_prefix("invalidated STag ") {
        return Some(format!("invalidated {stag}"));
    }
    if let Some(rest) = words.strip_prefix("refused ") {
        let (refusal, _) = rest.split_once(':')?;
        let (_, code) = rest.rsplit_once('(')?;
        let (code, _) = code.split_once(';')?;
        return Some(format!("refused {refusal} {code}"));
    }
    None
}

/// Gives the longest Send of a capture.
fn longest_send(capture: &Capture) -> u64 {
    let (mut longest, mut length) = (1, 0);
    for frame in capture.frames() {
        let Some(segment) = capture.segment(frame) else {
            continue;
        };
        if rdmap::is_send(rdmap::opcode(segment.rdmap_control)) {
            length += segment.payload.len() as u64;
            longest = longest.max(length);
            length *= u64::from(!segment.last);
        }
    }
    longest
}

/// Plays one stream against both, and compares the reply, what was said, and the stores.
fn play(name: &str, stops: Option<(u8, usize)>) {
    let path = format!("{}/tests/siw/{name}.client.hex", env!("CARGO_MANIFEST_DIR"));
    let text = fs::read_to_string(path).unwrap();
    let capture = Capture::read(&text, WINDOW).unwrap();
    let all: Vec<u8> = text
        .lines()
        .flat_map(|line| hex::decode(line.as_bytes()).unwrap())
        .collect();
    let request = &all[..all.len() - capture.bytes.len()];

    // The same box twice: a window for each region that the stream names, and buffers behind them.
    let buffer = longest_send(&capture);
    let mut config = String::from("ird 128\nord 128\n");
    let (mut free, mut windows) = (0, Vec::new());
    for (number, region) in (u64::from(WINDOW)..).zip(&capture.regions) {
        let (base, key) = (region.offsets.start, u64::from(KEY));
        let length = (region.offsets.end - base).max(1);
        let rights = ["", "write", "read", "both"][usize::from(region.rights)];
        config += &format!("window {number} {key} {base} {length} {free} {rights}\n");
        windows.push((number, key, base, length, free, u64::from(region.rights)));
        free += length;
    }
    let size = free + 4 * BUFFERS * buffer;
    config += &format!("buffers 1 {BUFFERS} {buffer} {free}\nstore {size}\n");
    config += &format!("part 0 0 0\npart 1 0 {size}\npart 2 {size} {size}\npart 3 {size} {size}");
    let mut second = Second {
        device: Device::default(),
        store: vec![0; size as usize],
        buffer,
        said: Vec::new(),
        fpdus: 0,
        ended: None,
    };
    let part = |start, end| Part { start, end };
    let parts = [
        part(0, 0),
        part(0, size),
        part(size, size),
        part(size, size),
    ];
    second.device.open(size, parts).unwrap();
    for (number, key, base, length, place, rights) in windows {
        let registered = second
            .device
            .register(number, key, base, length, place, rights);
        registered.unwrap();
    }
    let (crc, expected) = second_reply(request);
    assert_eq!(crc, capture.crc, "{name}");
    second.device.open_stream(STREAM, crc).unwrap();
    for at in 0..BUFFERS {
        second
            .device
            .post(STREAM, free + at * buffer, buffer)
            .unwrap();
    }

    let server = Server::start(&config);
    let mut socket = server.connect(1);
    assert_eq!(greet(&socket, request, expected.len()), expected, "{name}");
    let mut start = 0;
    for (at, &end) in capture.ends.iter().enumerate() {
        let piece = &capture.bytes[start..end];
        second.offer(piece);
        // The program resets the connection where it refuses, so that later pieces may not go out.
        let sent = socket.write_all(piece);
        assert!(sent.is_ok() || second.ended.is_some(), "{name}: {sent:?}");
        if at < 100 {
            thread::sleep(Duration::from_millis(1));
        }
        start = end;
    }
    let last = finish(socket);
    assert!(second.ended.is_some() || last.unwrap().is_empty(), "{name}");
    let line = server.wait_for("#1 closed, ");
    let log = server.log();
    let ours: Vec<String> = log.iter().filter_map(|line| said(line)).collect();
    assert_eq!(ours, second.said, "{name}");
    let counted = match second.fpdus {
        1 => String::from(" in 1 FPDU,"),
        count => format!(" in {count} FPDUs,"),
    };
    assert!(line.contains(&counted), "{name}: {line}");
    assert!(server.quit() == second.store, "{name}: the stores differ");
    let stopped = second.ended.map(|number| (number, second.fpdus));
    assert_eq!(stopped, stops, "{name}: where it stops");
    let frames = capture.frames().len();
    assert!(stops.is_some() || second.fpdus == frames, "{name}");
}

/// Gives the second program's reply to a request, and whether the CRC is on.
fn second_reply(request: &[u8]) -> (bool, Vec<u8>) {
    match read_startup2(Role::Request, request) {
        Startup2::Revision1(Startup::Whole { total, crc, .. }) => {
            assert_eq!(total, request.len());
            (crc, reply(1, crc, false, None, &[]))
        }
        Startup2::Whole {
            total,
            crc,
            establishment,
            ..
        } => {
            assert_eq!(total, request.len());
            let terms = establishment.map(|asked| respond(OWN, asked).unwrap());
            (crc, reply(2, crc, false, terms, &[]))
        }
        other => panic!("{other:?}"),
    }
}

/// Every stream is answered, reported and stored as the second program does it, up to where a request that has not landed
/// stops it.
#[test]
fn streams_of_siw() {
    for (name, stops) in STREAMS {
        play(name, stops);
    }
}
