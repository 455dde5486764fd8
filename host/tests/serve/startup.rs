//! Startups: each form, cut anywhere, declined, refused, too slow.

use std::io::{Read, Write};
use std::thread;
use std::time::{Duration, Instant};

use oracle::agree::{respond, Own};

use crate::support::{closed, finish, greet, opened, reply, request1, request2, terms};
use crate::support::{send, write, Server, PATIENCE};

/// A window of 256 bytes and a buffer of 64 for each stream of each domain.
const CONFIG: &str = "store 4096
startup 20
ird 4
ord 3
kinds send read
window 0 5 0 256 0 write
buffers 0 1 64 512
window 16 5 0 256 1024 write
buffers 1 1 64 1536";

/// What the configuration says of this side.
const OWN: Own = Own {
    ird: 4,
    ord: 3,
    kinds: 5,
};

/// Each form is answered in its form, and the bytes behind it go on, wherever the two are cut.
#[test]
fn every_form_cut_anywhere() {
    let server = Server::start(CONFIG);
    let mut stored = vec![0; 4096];
    let mut connections = 0;
    for (crc, asked) in [
        (false, None),
        (true, None),
        (false, Some(terms(false, 1, 2, 0))),
        (true, Some(terms(true, 9, 4, 7))),
        (false, Some(terms(true, 0x3FFF, 0x3FFF, 1))),
    ] {
        let answered = asked.map(|asked| respond(OWN, asked).unwrap());
        for revision in [1, 2] {
            let data: &[u8] = b"private data";
            let (request, expected) = match (revision, asked) {
                (1, Some(_)) => continue,
                (1, None) => (request1(crc, data), reply(1, crc, false, None, &[])),
                _ => (
                    request2(crc, asked, data),
                    reply(2, crc, false, answered, &[]),
                ),
            };
            let mut bytes = request.clone();
            bytes.extend(write(5, 200, b"written"));
            bytes.extend(send(1, b"sent"));
            for cut in 0..bytes.len() {
                let socket = server.connect(0);
                (&socket).write_all(&bytes[..cut]).unwrap();
                if cut % 8 == 0 {
                    // Now and then so slowly that the two pieces come apart.
                    thread::sleep(Duration::from_millis(2));
                }
                (&socket).write_all(&bytes[cut..]).unwrap();
                assert_eq!(finish(socket).unwrap(), expected, "cut at {cut}");
                connections += 1;
            }
        }
    }
    stored[200..207].copy_from_slice(b"written");
    stored[512..516].copy_from_slice(b"sent");
    server.wait_for_number("message 1: Send of 4 bytes at 512", connections);
    server.wait_for_number("closed, by the peer", connections);
    assert!(server.log().iter().all(|line| !line.contains("refused")));
    assert!(server.quit() == stored);
}

/// The CRC is on where the configuration asks for it, whatever the peer says.
#[test]
fn own_crc() {
    let server = Server::start(&CONFIG.replace("ird 4", "ird 4\ncrc on"));
    let mut wrong = write(5, 0, b"wrong");
    *wrong.last_mut().unwrap() ^= 1;
    for request in [
        request1(false, &[]),
        request2(false, None, &[]),
        request1(true, &[]),
    ] {
        let revision = request[17];
        let socket = server.connect(0);
        let expected = reply(revision, true, false, None, &[]);
        assert_eq!(greet(&socket, &request, 20), expected);
        (&socket).write_all(&wrong).unwrap();
        closed(&socket);
    }
    server.wait_for_number("refused 21: the FPDU's CRC is wrong (2/0/02", 3);
    assert!(server.quit().iter().all(|&byte| byte == 0));
}

/// A fifth stream is declined in the form that it asks in; where one has gone, the next is taken.
#[test]
fn fifth_stream() {
    let mut server = Server::start(CONFIG);
    let mut four: Vec<_> = (0..4).map(|_| opened(&server, 1)).collect();
    for stream in 4..8 {
        server.wait_for(&format!("opens stream {stream}: revision 1, CRC off"));
    }
    let why = b"no stream of domain 1 is free";
    let own = terms(true, 4, 3, 5);
    for (request, expected) in [
        (request1(false, &[]), reply(1, false, true, None, why)),
        (request1(true, b"x"), reply(1, true, true, None, why)),
        (request2(false, None, &[]), reply(2, false, true, None, why)),
        (
            request2(true, Some(terms(true, 1, 1, 7)), &[]),
            reply(2, true, true, Some(own), why),
        ),
    ] {
        let socket = server.connect(1);
        // What is sent behind the request is not looked at, and the reply comes nonetheless.
        let bytes = [request, write(0x1005, 0, b"not placed")].concat();
        (&socket).write_all(&bytes).unwrap();
        assert_eq!(finish(socket).unwrap(), expected);
    }
    server.wait_for_number("declined: no stream of domain 1 is free", 4);
    // Another domain has its own streams.
    drop(opened(&server, 0));
    server.say("status");
    server.wait_for("domain 1: 4 of 4 streams open, 0 starting");
    assert_eq!(finish(four.remove(2)).unwrap(), []);
    let fifth = opened(&server, 1);
    server.wait_for_number("opens stream 6: ", 2);
    drop((four, fifth));
    assert!(server.quit().iter().all(|&byte| byte == 0));
}

/// Terms that do not fit are declined with what this side can do, and its reason.
#[test]
fn terms_that_do_not_fit() {
    let server = Server::start(CONFIG);
    for (asked, number) in [
        (terms(false, 0, 5, 0), 40),
        (terms(true, 0, 128, 7), 40),
        (terms(true, 0, 4, 2), 41),
        (terms(true, 0, 0, 0), 41),
    ] {
        let refusal = respond(OWN, asked).unwrap_err();
        assert_eq!(refusal as u8, number);
        let socket = server.connect(0);
        (&socket)
            .write_all(&request2(false, Some(asked), &[]))
            .unwrap();
        let answer = finish(socket).unwrap();
        let line = server.wait_for(&format!("declined: {number}: "));
        let why = line.split("declined: ").nth(1).unwrap();
        let own = terms(asked.peer_to_peer, 4, 3, 5);
        assert_eq!(answer, reply(2, false, true, Some(own), why.as_bytes()));
    }
    server.quit();
}

/// What is no startup request closes that one connection, and nothing is sent.
#[test]
fn no_startup() {
    let server = Server::start(CONFIG);
    let stays = opened(&server, 0);
    let mut markers = request2(true, Some(terms(false, 1, 1, 0)), &[]);
    markers[16] |= 0x80;
    let mut revision = request1(false, &[]);
    revision[17] = 3;
    let mut long = request1(false, &[]);
    long[18..].copy_from_slice(&513_u16.to_be_bytes());
    for (bytes, number) in [
        (reply(1, false, false, None, &[]), 14),
        (vec![0; 20], 14),
        (b"GET / HTTP/1.1\r\nHost: box\r\n\r\n".to_vec(), 14),
        (revision, 14),
        (long, 14),
        (markers, 15),
    ] {
        let socket = server.connect(0);
        (&socket).write_all(&bytes).unwrap();
        closed(&socket);
        server.wait_for(&format!("refused {number}: "));
    }
    server.wait_for_number("refused 14: ", 5);
    server.wait_for_number("closed, refused: ", 6);
    (&stays).write_all(&write(5, 0, b"still here")).unwrap();
    assert_eq!(finish(stays).unwrap(), []);
    assert_eq!(server.quit()[..10], *b"still here");
}

/// A startup that takes too long is closed, silent or slow; one that is through may be silent as long as it likes.
#[test]
fn too_slow() {
    let server = Server::start(&CONFIG.replace("startup 20", "startup 1"));
    let open = opened(&server, 0);
    let began = Instant::now();
    let silent = server.connect(0);
    let half = server.connect(1);
    (&half).write_all(&request1(false, &[])[..19]).unwrap();
    let slow = server.connect(2);
    slow.set_nonblocking(true).unwrap();
    let request = request1(false, &[0; 200]);
    let mut sent = 0;
    while began.elapsed() < PATIENCE {
        let byte = &request[sent % 200..sent % 200 + 1];
        let mut buffer = [0];
        let gone = matches!((&slow).read(&mut buffer), Err(error) if error.kind() == std::io::ErrorKind::ConnectionReset);
        if gone || (&slow).write_all(byte).is_err() {
            break;
        }
        sent += 1;
        thread::sleep(Duration::from_millis(20));
    }
    assert!(sent > 10, "{sent}");
    closed(&silent);
    closed(&half);
    let took = began.elapsed();
    assert!(took >= Duration::from_millis(900), "{took:?}");
    assert!(took < Duration::from_secs(10), "{took:?}");
    server.wait_for_number("closed, its startup took too long", 3);
    (&open).write_all(&write(5, 7, b"open")).unwrap();
    assert_eq!(finish(open).unwrap(), []);
    assert_eq!(server.quit()[7..11], *b"open");
}
