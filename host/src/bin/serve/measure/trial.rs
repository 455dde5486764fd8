//! One trial: so many connections send to a server, each to a window of its own.

use std::io::{self, Read, Write};
use std::net::{Shutdown, SocketAddr, TcpStream};
use std::sync::atomic::{AtomicBool, Ordering};
use std::thread;
use std::time::{Duration, Instant};

use rnic::{read_startup, write_fpdu, write_startup};
use rnic::{Form, Message, Role, Startup, StartupRead};

use super::server::{Driver, Server};
use super::{failed, refused, WINDOW};
use crate::config::DOMAINS;
use crate::Failure;

/// How long a newcomer waits before it asks again.
const PAUSE: Duration = Duration::from_millis(2);

/// What came of a trial.
pub struct Trial {
    /// The times from the first byte behind the startups to the first close, and to the last.
    pub first: Duration,
    pub last: Duration,
    /// How long a newcomer waited for its reply, each time, the shortest first.
    pub waits: Vec<Duration>,
}

/// Sends each window so often, while a newcomer asks for a stream again and again, or none does.
pub fn trial(
    driver: Driver,
    connections: usize,
    crc: bool,
    rounds: u64,
    asking: bool,
) -> Result<Trial, Failure> {
    let server = Server::start(driver)?;
    let mut senders = Vec::new();
    for at in 0..connections {
        // They go round the domains.
        let (domain, slot) = (at % DOMAINS, at / DOMAINS);
        let stag = ((16 * domain + slot) * 256 + 5) as u64;
        let socket = TcpStream::connect(server.addresses[domain])?;
        if driver != Driver::Plain {
            start(&socket, crc)?;
        }
        senders.push((socket, frames(stag)?));
    }
    let over = AtomicBool::new(!asking);
    let began = Instant::now();
    let (sent, waits) = thread::scope(|scope| {
        let newcomer = scope.spawn(|| ask(&server.addresses, &over));
        let senders = senders.into_iter().map(|(socket, bytes)| {
            scope.spawn(move || send(socket, &bytes, rounds).map(|()| began.elapsed()))
        });
        let senders: Vec<_> = senders.collect();
        let sent: Vec<_> = senders.into_iter().map(|thread| thread.join()).collect();
        over.store(true, Ordering::SeqCst);
        (sent, newcomer.join())
    });
    let mut times = Vec::new();
    for sent in sent {
        times.push(sent.map_err(|_| failed("a sender panicked"))??);
    }
    let mut waits = waits.map_err(|_| failed("a newcomer panicked"))??;
    server.stop()?;
    times.sort();
    waits.sort();
    Ok(Trial {
        first: times.first().copied().unwrap_or_default(),
        last: times.last().copied().unwrap_or_default(),
        waits,
    })
}

/// Asks each domain for a stream in turn until the mark is set, and gives how long each reply took, accepted or declined.
fn ask(addresses: &[SocketAddr; DOMAINS], over: &AtomicBool) -> Result<Vec<Duration>, Failure> {
    let mut waits = Vec::new();
    while !over.load(Ordering::SeqCst) {
        let mut socket = TcpStream::connect(addresses[waits.len() % DOMAINS])?;
        let (asked, mut reply) = (Instant::now(), [0; 20]);
        socket.write_all(&request(false)?)?;
        socket.read_exact(&mut reply)?;
        waits.push(asked.elapsed());
        thread::sleep(PAUSE);
    }
    Ok(waits)
}

/// Gives the FPDUs of a Write over a whole window.
fn frames(stag: u64) -> Result<Vec<u8>, Failure> {
    let payload = vec![0x5A; WINDOW];
    let mut message = Message::write(8192, stag, 0, WINDOW as u64).map_err(refused)?;
    let (mut bytes, mut segment, mut fpdu) = (Vec::new(), [0; 8192], [0; 8200]);
    while let Some(length) = message.next(&payload, &mut segment).map_err(refused)? {
        let total = write_fpdu(&segment[..length], &mut fpdu).map_err(refused)?;
        bytes.extend_from_slice(&fpdu[..total]);
    }
    Ok(bytes)
}

/// Gives a startup request of revision 1.
fn request(crc: bool) -> Result<[u8; 20], Failure> {
    let request = Startup {
        crc,
        declined: false,
        form: Form::First,
    };
    let mut frame = [0; 20];
    write_startup(Role::Request, request, &[], &mut frame).map_err(refused)?;
    Ok(frame)
}

/// Does a startup of revision 1.
fn start(mut socket: &TcpStream, crc: bool) -> Result<(), Failure> {
    let mut frame = request(crc)?;
    socket.write_all(&frame)?;
    socket.read_exact(&mut frame)?;
    match read_startup(Role::Reply, &frame).map_err(refused)? {
        StartupRead::Taken { frame, .. } if !frame.declined => Ok(()),
        _ => Err(failed("the startup was declined")),
    }
}

/// Sends the bytes so often, and waits until the other side has closed.
fn send(mut socket: TcpStream, bytes: &[u8], rounds: u64) -> io::Result<()> {
    for _ in 0..rounds {
        socket.write_all(bytes)?;
    }
    socket.shutdown(Shutdown::Write)?;
    io::copy(&mut socket, &mut io::sink()).map(|_| ())
}
