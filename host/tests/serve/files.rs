//! The end, by a line and by signals; the store saved and loaded; the capture; the status.

use std::fs;
use std::io::Write;
use std::thread;
use std::time::Duration;

use oracle::generate::prng::Prng;

use crate::support::{closed, finish, folder, greet, opened, reply, request1, request2, run};
use crate::support::{send, terms, write, Server};

/// A small box.
const CONFIG: &str = "store 4096
window 0 5 0 256 0 write
buffers 0 2 64 512
window 16 5 0 256 1024 write
buffers 1 2 64 1536";

/// What one server saves, the next one loads, and goes on with.
#[test]
fn saved_and_loaded() {
    let first = Server::start(CONFIG);
    let socket = opened(&first, 0);
    (&socket).write_all(&write(5, 10, b"first")).unwrap();
    assert_eq!(finish(socket).unwrap(), []);
    let store = first.quit();
    assert_eq!(store.len(), 4096);
    assert_eq!(store[10..15], *b"first");

    let folder = folder();
    fs::write(folder.join("before"), &store).unwrap();
    let second = Server::start_with(CONFIG, &["--load", "before"], folder);
    let socket = opened(&second, 1);
    (&socket).write_all(&write(0x1005, 0, b"second")).unwrap();
    assert_eq!(finish(socket).unwrap(), []);
    let mut expected = store;
    expected[1024..1030].copy_from_slice(b"second");
    assert!(second.quit() == expected);
}

/// A store of another length is not loaded.
#[test]
fn another_length() {
    let folder = folder();
    let (config, store) = (folder.join("serve.conf"), folder.join("store"));
    fs::write(&config, CONFIG).unwrap();
    fs::write(&store, [0; 4095]).unwrap();
    let words = [&config, &store].map(|path| path.to_str().unwrap());
    let output = run(&[words[0], "--load", words[1]]);
    fs::remove_dir_all(folder).unwrap();
    assert_eq!(output.status.code(), Some(1));
    let text = String::from_utf8(output.stderr).unwrap();
    assert!(
        text.contains("has 4095 bytes, and the store has 4096"),
        "{text}"
    );
}

/// A port that is taken is told, and nothing is saved.
#[test]
fn taken_port() {
    let server = Server::start(CONFIG);
    let folder = folder();
    let config = folder.join("serve.conf");
    let text = format!("store 4096\nlisten 2 {}", server.address(2));
    fs::write(&config, text).unwrap();
    let output = run(&[config.to_str().unwrap()]);
    fs::remove_dir_all(folder).unwrap();
    assert_eq!(output.status.code(), Some(1), "{output:?}");
    server.quit();
}

/// SIGTERM and SIGINT end it cleanly: connections closed, streams too, the store saved.
#[test]
fn signals() {
    for name in ["TERM", "INT"] {
        let server = Server::start(CONFIG);
        let socket = opened(&server, 0);
        (&socket).write_all(&write(5, 0, name.as_bytes())).unwrap();
        (&socket).write_all(&write(5, 9, b"half")[..20]).unwrap();
        // So that all of it has come: the log says nothing of a Write.
        (&opened(&server, 0)).write_all(&send(1, b"x")).unwrap();
        server.wait_for("message 1: Send of 1 byte at");
        thread::sleep(Duration::from_millis(100));
        server.signal(name);
        closed(&socket);
        server.wait_for("#1 closed, this program ends: ");
        let line = server.wait_for("#1 closed");
        assert!(
            line.contains("and 20 bytes of an unfinished FPDU"),
            "{line}"
        );
        let store = server.ended();
        assert_eq!(store[..name.len()], *name.as_bytes());
        assert_eq!(store[9..13], [0; 4]);
    }
}

/// Without standard input it goes on, until a signal.
#[test]
fn no_input() {
    let mut server = Server::start(CONFIG);
    server.close_input();
    thread::sleep(Duration::from_millis(100));
    let socket = opened(&server, 0);
    (&socket).write_all(&write(5, 0, b"on")).unwrap();
    assert_eq!(finish(socket).unwrap(), []);
    server.signal("TERM");
    assert_eq!(server.ended()[..2], *b"on");
}

/// The status tells what each domain has had.
#[test]
fn status() {
    let mut server = Server::start_with(CONFIG, &["--status", "1"], folder());
    let socket = opened(&server, 0);
    let bytes = [write(5, 0, b"four"), send(1, b"one"), send(2, b"two")].concat();
    (&socket).write_all(&bytes).unwrap();
    let wrong = opened(&server, 1);
    (&wrong).write_all(&write(5, 0, b"not its own")).unwrap();
    closed(&wrong);
    server.wait_for("message 2: ");
    let silent = server.connect(1);
    server.wait_for("#3 ");
    server.say("status");
    let length = 20 + bytes.len();
    let line = server.wait_for(&format!(
        "domain 0: 1 of 4 streams open, 0 starting; {length} bytes in 3 FPDUs, 2 messages; 1 live window; 0 refusals, 0 declined; "
    ));
    assert!(line.contains(" bytes a second; placed: "), "{line}");
    server.wait_for("domain 1: 0 of 4 streams open, 1 starting; ");
    server.wait_for(" in 0 FPDUs, 0 messages; 1 live window; 1 refusal, 0 declined; ");
    // By itself, each second.
    server.wait_for_number("domain 3: ", 4);
    server.say("what");
    server.wait_for("`what` is neither status nor quit");
    drop((socket, silent));
    server.quit();
}

/// A packet of a capture: from port to port, its sequence number, what it acknowledges, its flags and its payload.
struct Packet {
    from: u16,
    to: u16,
    sequence: u32,
    acknowledged: u32,
    flags: u8,
    payload: Vec<u8>,
}

/// Adds up what is covered by a checksum, 16 bits each; with the checksum among them it is all ones.
fn sum(bytes: &[u8]) -> u16 {
    let mut sum = 0_u64;
    for (at, &byte) in bytes.iter().enumerate() {
        sum += u64::from(byte) << (8 * (1 - at % 2));
    }
    while sum > 0xFFFF {
        sum = sum / 0x1_0000 + sum % 0x1_0000;
    }
    sum as u16
}

/// Reads a capture, each checksum and length of which must be right.
fn packets(capture: &[u8]) -> Vec<Packet> {
    let little = |at: usize| u32::from_le_bytes(capture[at..at + 4].try_into().unwrap());
    assert_eq!(little(0), 0xA1B2_C3D4);
    assert_eq!(capture[4..8], [2, 0, 4, 0]);
    assert_eq!(little(20), 1);
    let (mut at, mut packets) = (24, Vec::new());
    while at < capture.len() {
        let length = little(at + 8) as usize;
        assert_eq!(little(at + 12) as usize, length);
        let frame = &capture[at + 16..at + 16 + length];
        at += 16 + length;
        let short = |at: usize| u16::from_be_bytes([frame[at], frame[at + 1]]);
        let long = |at: usize| u32::from_be_bytes(frame[at..at + 4].try_into().unwrap());
        assert_eq!(short(12), 0x0800);
        assert_eq!(usize::from(short(16)), length - 14);
        assert_eq!((frame[14], frame[23]), (0x45, 6));
        assert_eq!(sum(&frame[14..34]), 0xFFFF);
        let covered = (length - 34) as u16;
        let covered = [
            &frame[26..34],
            &[0, 6],
            &covered.to_be_bytes(),
            &frame[34..],
        ]
        .concat();
        assert_eq!(sum(&covered), 0xFFFF);
        assert_eq!(frame[46], 0x50);
        packets.push(Packet {
            from: short(34),
            to: short(36),
            sequence: long(38),
            acknowledged: long(42),
            flags: frame[47],
            payload: frame[54..].to_vec(),
        });
    }
    packets
}

/// A capture has all bytes of all connections, both ways, with the right numbers, and a frame a packet.
#[test]
fn captured() {
    let server = Server::start_with(CONFIG, &["--pcap", "night.pcap"], folder());
    let request = request2(true, Some(terms(false, 1, 1, 0)), b"data");
    let answer = reply(2, true, false, Some(terms(false, 8, 1, 0)), &[]);
    let frames = [write(5, 0, &Prng::new(1).bytes(100)), send(1, b"sent")];
    let socket = server.connect(0);
    assert_eq!(greet(&socket, &request, answer.len()), answer);
    (&socket).write_all(&frames.concat()).unwrap();
    assert_eq!(finish(socket).unwrap(), []);
    server.wait_for("#1 closed");
    let refused = server.connect(1);
    let startup = request1(false, &[]);
    assert_eq!(greet(&refused, &startup, 20).len(), 20);
    let wrong = write(5, 0, b"another domain's");
    (&refused).write_all(&wrong).unwrap();
    closed(&refused);
    server.wait_for("#2 closed");
    let path = server.folder.join("night.pcap");
    let ports = [0, 1].map(|domain| {
        let address = server.address(domain);
        address.rsplit(':').next().unwrap().parse::<u16>().unwrap()
    });
    // All of it is there while the program still runs.
    let packets = packets(&fs::read(&path).unwrap());
    for (port, sent, got, last) in [
        (
            ports[0],
            [vec![request], frames.to_vec()].concat(),
            answer,
            0x11,
        ),
        (
            ports[1],
            vec![startup, wrong],
            reply(1, false, false, None, &[]),
            0x14,
        ),
    ] {
        let flow: Vec<&Packet> = packets
            .iter()
            .filter(|packet| packet.from == port || packet.to == port)
            .collect();
        let flags: Vec<u8> = flow.iter().take(3).map(|packet| packet.flags).collect();
        assert_eq!(flags, [0x02, 0x12, 0x10]);
        assert_eq!(flow.last().unwrap().flags, last);
        let (mut next, mut payloads) = ([0_u32; 2], [Vec::new(), Vec::new()]);
        for packet in &flow {
            let side = usize::from(packet.from == port);
            assert_eq!(packet.sequence, next[side]);
            if packet.flags & 0x10 != 0 {
                assert_eq!(packet.acknowledged, next[1 - side]);
            }
            let counted = u32::from(packet.flags & 3 != 0) + packet.payload.len() as u32;
            next[side] = next[side].wrapping_add(counted);
            if !packet.payload.is_empty() {
                payloads[side].push(packet.payload.clone());
            }
        }
        let [theirs, ours] = payloads;
        assert_eq!(theirs.concat(), sent.concat());
        assert_eq!(ours.concat(), got);
        if port == ports[0] {
            // TCP may have cut a frame in two, but no packet has two frames.
            assert!(theirs.len() >= sent.len());
        }
    }
    server.quit();
}
