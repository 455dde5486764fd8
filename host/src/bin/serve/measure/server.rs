//! A server in threads of this program, by one of the drivers.

use std::io::Read;
use std::net::{Ipv4Addr, SocketAddr, TcpListener, TcpStream};
use std::sync::atomic::{AtomicBool, Ordering};
use std::sync::Arc;
use std::thread;

use super::threads::Shared;
use super::{failed, refused, WINDOW};
use crate::config::{Config, DOMAINS};
use crate::engine::Engine;
use crate::log::Log;
use crate::net::Net;
use crate::Failure;

/// What takes the bytes.
#[derive(Clone, Copy, PartialEq, Eq)]
pub enum Driver {
    /// A thread a connection that does nothing but a copy into a store.
    Plain,
    /// One thread that waits for all sockets: what `serve` is.
    OneThread,
    /// A thread a connection, and the device behind a lock that is had by who comes by.
    ComeBy,
    /// The same with a lock that is had in turn.
    InTurn,
}

/// A server that runs.
pub struct Server {
    pub addresses: [SocketAddr; DOMAINS],
    end: Arc<AtomicBool>,
    threads: Vec<thread::JoinHandle<()>>,
}

impl Server {
    /// Starts one on free ports.
    pub fn start(driver: Driver) -> Result<Self, Failure> {
        let end = Arc::new(AtomicBool::new(false));
        let config = Config::read(&configuration()).map_err(|wrong| failed(&wrong.words))?;
        let store = vec![0; config.store as usize];
        let engine = Engine::new(config.clone(), store).map_err(refused)?;
        let mut server = Server {
            addresses: [SocketAddr::from((Ipv4Addr::LOCALHOST, 0)); DOMAINS],
            end: Arc::clone(&end),
            threads: Vec::new(),
        };
        if driver == Driver::OneThread {
            let mut net = Net::listen(&config, engine, Log::nowhere())?;
            for domain in 0..DOMAINS {
                server.addresses[domain] = net.address(domain)?;
            }
            server.threads.push(thread::spawn(move || {
                let _ = net.run(&end, None, None);
            }));
            return Ok(server);
        }
        let shared = Arc::new(Shared::new(engine, driver == Driver::InTurn));
        for domain in 0..DOMAINS {
            let listener = TcpListener::bind(server.addresses[domain])?;
            server.addresses[domain] = listener.local_addr()?;
            let (end, shared) = (Arc::clone(&end), Arc::clone(&shared));
            server.threads.push(thread::spawn(move || {
                accept(&listener, &end, |socket| match driver {
                    Driver::Plain => copy(socket),
                    _ => shared.serve(socket, domain),
                })
            }));
        }
        Ok(server)
    }

    /// Ends it.
    pub fn stop(self) -> Result<(), Failure> {
        self.end.store(true, Ordering::SeqCst);
        for address in self.addresses {
            // A connection wakes who waits for one.
            let _ = TcpStream::connect(address);
        }
        for thread in self.threads {
            thread.join().map_err(|_| failed("a server panicked"))?;
        }
        Ok(())
    }
}

/// Gives a configuration with a window for each of sixteen connections.
fn configuration() -> String {
    let part = 4 * WINDOW;
    let mut text = format!("store {}\n", DOMAINS * part);
    for domain in 0..DOMAINS {
        text += &format!("listen {domain} 127.0.0.1:0\n");
        for slot in 0..4 {
            let (number, place) = (16 * domain + slot, domain * part + slot * WINDOW);
            text += &format!("window {number} 5 0 {WINDOW} {place} write\n");
        }
    }
    text
}

/// Gives each connection a thread, until the mark is set and one more comes.
fn accept(listener: &TcpListener, end: &AtomicBool, serve: impl Fn(TcpStream) + Sync) {
    let serve = &serve;
    thread::scope(|scope| {
        while let Ok((socket, _)) = listener.accept() {
            if end.load(Ordering::SeqCst) {
                return;
            }
            scope.spawn(move || serve(socket));
        }
    });
}

/// The plain copy: bytes that come are put into a store, round and round.
fn copy(mut socket: TcpStream) {
    let (mut buffer, mut store) = (vec![0; 256 * 1024], vec![0; WINDOW]);
    let mut at = 0;
    while let Ok(count @ 1..) = socket.read(&mut buffer) {
        if at + count > store.len() {
            at = 0;
        }
        store[at..at + count].copy_from_slice(&buffer[..count]);
        at += count;
    }
    std::hint::black_box(&store);
}
