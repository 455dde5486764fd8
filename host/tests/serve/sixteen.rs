//! All sixteen streams at once.

use std::io::Write;
use std::net::TcpStream;
use std::thread;
use std::time::{Duration, Instant};

use oracle::generate::prng::Prng;

use crate::support::Server;
use crate::support::{closed, finish, greet, reply, request1, send, write};

/// Bytes of each stream's window, of its buffer, and of a domain's part.
const WINDOW: usize = 8192;
const BUFFER: usize = 1024;
const PART: usize = 65_536;
/// How often each connection writes its window.
const ROUNDS: u64 = 30;

/// Gives a box with a window and a buffer for each of the sixteen streams.
fn config() -> String {
    let mut text = format!("store {}\nstartup 60\n", 4 * PART);
    for stream in 0..16 {
        let (number, (place, buffer)) = (stag(stream) / 256, places(stream));
        text += &format!("window {number} 5 0 {WINDOW} {place} write\n");
        if stream % 4 == 0 {
            text += &format!("buffers {} 1 {BUFFER} {buffer}\n", stream / 4);
        }
    }
    text
}

/// Gives what one connection writes in a round, and what it sends.
fn round(stream: usize, number: u64) -> (Vec<u8>, Vec<u8>) {
    let mut prng = Prng::new(1000 * stream as u64 + number);
    (prng.bytes(WINDOW), prng.bytes(BUFFER))
}

/// Gives the STag of a stream's window.
fn stag(stream: usize) -> u64 {
    ((16 * (stream / 4) + stream % 4) * 256 + 5) as u64
}

/// Gives where a stream's window and its buffer start in the store.
fn places(stream: usize) -> (usize, usize) {
    let (domain, own) = (PART * (stream / 4), stream % 4);
    (domain + WINDOW * own, domain + 4 * WINDOW + BUFFER * own)
}

/// Gives the frames of a round: a Write, and a Send of that number.
fn frames(stream: usize, number: u64) -> Vec<u8> {
    let (written, sent) = round(stream, number);
    [write(stag(stream), 0, &written), send(number, &sent)].concat()
}

/// Opens all streams, one after the other, so that connection n has stream n; every other one has the CRC on.
fn all_open(server: &Server) -> Vec<TcpStream> {
    let open = |stream: usize| {
        let (socket, crc) = (server.connect(stream / 4), stream % 2 == 1);
        let answer = greet(&socket, &request1(crc, &[]), 20);
        assert_eq!(answer, reply(1, crc, false, None, &[]));
        server.wait_for(&format!("#{} opens stream {stream}: ", stream + 1));
        socket
    };
    (0..16).map(open).collect()
}

/// Sixteen connections send at once, each in pieces of its own: every byte is in its place, and each connection's messages are in
/// the log in their order.
#[test]
fn at_once() {
    let server = Server::start(&config());
    let sockets = all_open(&server);
    thread::scope(|scope| {
        for (stream, mut socket) in sockets.into_iter().enumerate() {
            scope.spawn(move || {
                let mut prng = Prng::new(stream as u64);
                for number in 1..=ROUNDS {
                    let bytes = frames(stream, number);
                    let mut rest = &bytes[..];
                    while !rest.is_empty() {
                        let count = (1 + prng.index(6000)).min(rest.len());
                        socket.write_all(&rest[..count]).unwrap();
                        rest = &rest[count..];
                    }
                }
                assert_eq!(finish(socket).unwrap(), []);
            });
        }
    });
    let mut expected = vec![0; 4 * PART];
    for stream in 0..16 {
        let id = stream + 1;
        let length = 20
            + (1..=ROUNDS)
                .map(|number| frames(stream, number).len())
                .sum::<usize>();
        let line = server.wait_for(&format!("#{id} closed, by the peer: {length} bytes in "));
        assert!(line.ends_with(&format!(", {ROUNDS} messages")), "{line}");
        let log = server.log();
        let messages = log.iter().filter_map(|line| {
            let (_, words) = line.split_once(&format!(" #{id} message "))?;
            words.split(':').next()?.parse::<u64>().ok()
        });
        assert!(messages.eq(1..=ROUNDS), "{id}: {log:#?}");
        let (written, sent) = round(stream, ROUNDS);
        let (window, buffer) = places(stream);
        expected[window..window + WINDOW].copy_from_slice(&written);
        expected[buffer..buffer + BUFFER].copy_from_slice(&sent);
    }
    let store = server.quit();
    let differ = (0..store.len()).find(|&at| store[at] != expected[at]);
    assert_eq!(differ, None, "the first byte that is not as it should be");
}

/// It ends at once though twelve connections send without end, four say half a frame and one nothing; each is told of in the log.
#[test]
fn quit_amid() {
    let mut server = Server::start(&config());
    let sockets = all_open(&server);
    let silent = server.connect(2);
    server.wait_for("#17 ");
    let store = thread::scope(|scope| {
        for (stream, mut socket) in sockets.into_iter().enumerate() {
            scope.spawn(move || {
                let bytes = frames(stream, 1);
                if stream % 4 == 3 {
                    socket.write_all(&bytes[..700]).unwrap();
                    return closed(&socket);
                }
                socket.write_all(&bytes).unwrap();
                // The same Write again and again, as long as the program takes it.
                let (written, _) = round(stream, 1);
                let bytes = write(stag(stream), 0, &written);
                while socket.write_all(&bytes).is_ok() {}
            });
        }
        for stream in (0..16).filter(|stream| stream % 4 != 3) {
            server.wait_for(&format!(" #{} message 1: ", stream + 1));
        }
        let began = Instant::now();
        server.say("quit");
        for connection in 1..=17 {
            server.wait_for(&format!(" #{connection} closed, this program ends: "));
        }
        let took = began.elapsed();
        assert!(took < Duration::from_secs(5), "{took:?}");
        let lines = server.log();
        let closes = lines.iter().filter(|line| line.contains(" closed, "));
        assert_eq!(closes.count(), 17, "{lines:#?}");
        server.ended()
    });
    closed(&silent);
    for stream in (0..16).filter(|stream| stream % 4 != 3) {
        let (written, sent) = round(stream, 1);
        let (window, buffer) = places(stream);
        assert!(store[window..window + WINDOW] == written, "stream {stream}");
        assert!(store[buffer..buffer + BUFFER] == sent, "stream {stream}");
    }
}
