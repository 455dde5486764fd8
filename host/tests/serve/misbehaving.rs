//! Peers that misbehave do not disturb the others, and cost no memory.

use std::io::{Read, Write};
use std::net::TcpStream;
use std::sync::atomic::{AtomicBool, AtomicU64, Ordering};
use std::thread;
use std::time::{Duration, Instant};

use oracle::generate::prng::Prng;

use crate::support::{closed, finish, fpdu, opened, read_request, request1, send, write};
use crate::support::{folder, Server, PATIENCE};

/// Four parts of 64 KiB, each with a window of 32 KiB and buffers in its upper half.
const CONFIG: &str = "store 262144
startup 2
window 0 5 0 32768 0 write
buffers 0 4 1024 32768
window 1 5 0 32768 0 read
window 16 5 0 32768 65536 write
buffers 1 4 1024 98304
window 32 5 0 32768 131072 write
buffers 2 4 1024 163840
window 48 5 0 32768 196608 write
buffers 3 4 1024 229376";

/// How many connections misbehave at a time.
const OTHERS: u64 = 15;
/// How often each of the quick ones does, at least, while one packs.
const TIMES: u64 = 20;

/// A connection that misbehaves in one of seven ways, and places nothing. An error is its end: the program may close it at any
/// time.
fn misbehave(
    socket: &mut TcpStream,
    way: u64,
    prng: &mut Prng,
    end: &AtomicBool,
) -> std::io::Result<()> {
    let request = request1(prng.percent(50), &prng.bytes(30));
    // A Write that does not lie inside the window, and the front of a frame that never ends.
    let outside = write(0x0005, 32768, b"outside");
    let front = &send(1, &[7; 900])[..500];
    match way {
        // Slowly, byte by byte.
        0 => {
            for byte in request.iter().chain(&outside) {
                socket.write_all(&[*byte])?;
                thread::sleep(Duration::from_millis(1));
            }
        }
        // Cut at every byte, one more each time.
        1 => {
            let bytes = [&request[..], &outside].concat();
            for cut in 1..bytes.len() {
                let mut socket = TcpStream::connect(socket.peer_addr()?)?;
                socket.set_nodelay(true)?;
                socket.write_all(&bytes[..cut])?;
                socket.write_all(&bytes[cut..])?;
            }
        }
        // Garbage from the first byte on.
        2 => {
            let length = prng.index(5000);
            socket.write_all(&prng.bytes(length))?;
        }
        // Garbage behind a startup.
        3 => {
            socket.write_all(&request)?;
            let length = prng.index(5000);
            socket.write_all(&prng.bytes(length))?;
        }
        // Half open: it says half of its startup and waits.
        4 => {
            let length = prng.index(request.len());
            socket.write_all(&request[..length])?;
            while !end.load(Ordering::SeqCst) && socket.write_all(&[]).is_ok() {
                thread::sleep(Duration::from_millis(20));
                let mut byte = [0];
                socket.set_read_timeout(Some(Duration::from_millis(10)))?;
                if !matches!(socket.read(&mut byte), Err(error) if error.kind() == std::io::ErrorKind::WouldBlock)
                {
                    break;
                }
            }
        }
        // A reset in the middle of a frame: the reply is not read, so that a close is one.
        5 => {
            socket.write_all(&request)?;
            socket.write_all(front)?;
            thread::sleep(Duration::from_millis(2));
        }
        // Opened and closed again.
        _ => (),
    }
    Ok(())
}

/// While one packs, fifteen others misbehave on all domains: it finishes, its bytes are right, and no other byte changes.
#[test]
fn one_packs_among_fifteen() {
    let folder = folder();
    let before = Prng::new(1).bytes(262_144);
    std::fs::write(folder.join("before"), &before).unwrap();
    let server = Server::start_with(CONFIG, &["--load", "before"], folder);
    let mut packer = opened(&server, 0);
    let (end, ways) = (
        AtomicBool::new(false),
        [0; 7].map(|_: u8| AtomicU64::new(0)),
    );
    let began = Instant::now();
    let mut rounds = 0_u64;
    let packed = thread::scope(|scope| {
        for other in 0..OTHERS {
            let (server, end, ways) = (&server, &end, &ways);
            scope.spawn(move || {
                let mut prng = Prng::new(other);
                while !end.load(Ordering::SeqCst) {
                    let way = other % 7;
                    // On the packer's own domain too.
                    let domain = prng.index(4);
                    if let Ok(mut socket) = TcpStream::connect(server.address(domain)) {
                        let _ = socket.set_nodelay(true);
                        let _ = misbehave(&mut socket, way, &mut prng, end);
                        ways[way as usize].fetch_add(1, Ordering::SeqCst);
                    }
                    thread::sleep(Duration::from_millis(1));
                }
            });
        }
        // Where the packer fails, the others end too.
        let _ender = Ender(&end);
        let enough = || {
            let mut quick = [2, 3, 5, 6].iter();
            let once = |way: usize, times| ways[way].load(Ordering::SeqCst) >= times;
            quick.all(|&way| once(way, TIMES)) && once(0, 2) && once(1, 1)
        };
        // The window is written over and over, each time with other bytes, and a Send comes between.
        while began.elapsed() < PATIENCE {
            rounds += 1;
            let bytes = pattern(rounds);
            packer.write_all(&write(5, 0, &bytes)).unwrap();
            packer
                .write_all(&send(rounds, &[rounds as u8; 700]))
                .unwrap();
            if rounds > 40 && enough() {
                break;
            }
            thread::sleep(Duration::from_millis(20));
        }
        let enough = enough();
        (enough, finish(packer))
    });
    assert!(packed.0, "the others hardly came: {ways:?}");
    assert_eq!(packed.1.unwrap(), []);
    let line = server.wait_for("#1 closed, by the peer: ");
    assert!(line.contains(&format!(", {rounds} messages")), "{line}");
    let mut expected = before;
    expected[..32768].copy_from_slice(&pattern(rounds));
    for message in rounds.saturating_sub(4)..rounds {
        // The stream's four buffers are filled in turn.
        let start = 32768 + 1024 * (message as usize % 4);
        expected[start..start + 700].fill((message + 1) as u8);
    }
    let store = server.quit();
    let differ = (0..store.len()).find(|&at| store[at] != expected[at]);
    assert_eq!(differ, None, "the first byte that is not as it should be");
}

/// Sets a mark when it goes.
struct Ender<'a>(&'a AtomicBool);

impl Drop for Ender<'_> {
    fn drop(&mut self) {
        self.0.store(true, Ordering::SeqCst);
    }
}

/// Gives a round's bytes.
fn pattern(round: u64) -> Vec<u8> {
    (0..32768_u32)
        .map(|at| (at / 7) as u8 ^ round as u8)
        .collect()
}

/// A refusal of one peer's bytes closes its connection, tells why, and no other connection notices.
#[test]
fn refusals_by_their_numbers() {
    let server = Server::start(CONFIG);
    let stays = opened(&server, 0);
    let mut version = write(5, 0, b"x");
    version[2] = 0xC0;
    // The writer refuses an end past 2^64, so the offset is put in behind it.
    let mut wraps = write(5, 0, b"xy");
    wraps[8..16].fill(0xFF);
    let response = {
        let mut ulpdu = vec![0xC1, 0x42, 0, 0, 0, 5];
        ulpdu.extend([0; 8]);
        fpdu(&ulpdu)
    };
    let cases: [(usize, Vec<u8>, &str); 11] = [
        (
            0,
            vec![0x20, 0x01],
            "20: the FPDU says a length over 8,192 bytes (1/0/00",
        ),
        (0, fpdu(&[0xC1, 0x40]), "22: "),
        (0, version, "23: "),
        (
            1,
            write(5, 0, b"x"),
            "24: the Write's STag is that of another domain's window (1/1/02",
        ),
        (0, write(6, 0, b"x"), "25: "),
        (0, wraps, "26: "),
        (
            0,
            write(5, 32768, b"x"),
            "27: the Write does not lie inside the window (1/1/01",
        ),
        (0, send(2, b"x"), "29: "),
        (
            0,
            send(1, &[0; 1025]),
            "32: the message is longer than the buffer that waits for it (1/2/05",
        ),
        (0, response, "34: "),
        (0, read_request(1, 1, 0x0005, 0), "38: "),
    ];
    for (domain, bytes, words) in cases {
        let socket = opened(&server, domain);
        (&socket).write_all(&bytes).unwrap();
        closed(&socket);
        server.wait_for(&format!("refused {words}"));
    }
    server.wait_for_number("closed, refused: ", 11);
    (&stays).write_all(&write(5, 3, b"stays")).unwrap();
    assert_eq!(finish(stays).unwrap(), []);
    let store = server.quit();
    assert_eq!(store[3..8], *b"stays");
    // A message that is too long is refused whole, as is all else: nothing was placed beside.
    let others = store[..3].iter().chain(&store[8..]);
    assert!(others.into_iter().all(|&byte| byte == 0));
}

/// Reads are taken and told, however many come, and a Terminate closes.
#[test]
fn reads_and_a_terminate() {
    let server = Server::start(CONFIG);
    let socket = opened(&server, 0);
    for number in 1..=100 {
        let bytes = read_request(number, 64, 0x0105, 16);
        (&socket).write_all(&bytes).unwrap();
    }
    let line = server.wait_for_number("asks to read 64 bytes of STag 0x105 at 16: ", 100);
    assert!(line.contains("not answered"), "{line}");
    let mut ulpdu = vec![0x41, 0x47, 0, 0, 0, 0, 0, 0, 0, 2, 0, 0, 0, 1, 0, 0, 0, 0];
    ulpdu.extend([0x11, 0x02, 0, 0]);
    (&socket).write_all(&fpdu(&ulpdu)).unwrap();
    closed(&socket);
    server.wait_for("#1 the peer terminates: 1/1/02");
    assert!(server.quit().iter().all(|&byte| byte == 0));
}

/// The most memory that the program ever had does not grow with what peers send or with how many connect.
#[test]
fn memory_is_bounded() {
    let mut server = Server::start(&CONFIG.replace("startup 2", "startup 60"));
    let packer = opened(&server, 0);
    (&packer).write_all(&write(5, 0, &[1; 32768])).unwrap();
    drop(opened(&server, 1));
    server.wait_for("#2 closed");
    let before = server.kilobytes("VmHWM:");
    // More connections in their startup than may be, each with a startup that is not whole.
    let half = request1(false, &[0; 512]);
    let held: Vec<TcpStream> = (0..200)
        .map(|_| {
            let socket = server.connect(2);
            (&socket).write_all(&half[..531]).unwrap();
            socket
        })
        .collect();
    server.wait_for_number("closed, too many are in their startup", 200 - 64);
    // A line without an end, a frame that never ends on each stream, many megabytes of Writes, and garbage.
    server.say(&"x".repeat(100_000));
    let streams: Vec<TcpStream> = (0..4).map(|_| opened(&server, 3)).collect();
    for socket in &streams {
        let mut socket = socket;
        socket.write_all(&fpdu(&[7; 8192])[..8000]).unwrap();
    }
    let bytes = write(5, 0, &[2; 32768]);
    for _ in 0..600 {
        (&packer).write_all(&bytes).unwrap();
    }
    for seed in 0..100 {
        let mut socket = server.connect(1);
        let _ = socket.write_all(&Prng::new(seed).bytes(100_000));
    }
    assert_eq!(finish(packer).unwrap(), []);
    let after = server.kilobytes("VmHWM:");
    assert!(after < before + 2048, "{before} kB, and then {after} kB");
    drop((held, streams));
    assert!(server.quit()[..32768].iter().all(|&byte| byte == 2));
}
