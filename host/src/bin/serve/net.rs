//! The sockets: one thread that waits for all of them, reads what has come, and gives it to the engine.

mod connection;

use std::io;
use std::net::{SocketAddr, TcpListener, TcpStream};
use std::os::fd::AsFd;
use std::path::Path;
use std::sync::atomic::{AtomicBool, Ordering};
use std::time::{Duration, Instant};

use crate::config::{Config, DOMAINS};
use crate::console::{Asked, Console};
use crate::engine::{Engine, Peer};
use crate::log::{say, Log};
use crate::pcap::Capture;
use crate::status::Rates;
use crate::sys::{self, Waited, READABLE, WRITABLE};

use connection::Connection;

/// The most bytes that are read in a round of all connections, but for `LEAST` of each.
const ROUND: usize = 256 * 1024;
/// As many bytes of each connection are read at once, however many there are.
const LEAST: usize = 64 * 1024;
/// The most connections of a domain that may have no stream; with one more, the oldest of them is closed.
const STARTING: usize = 64;
/// The most connections that are accepted in one round.
const ACCEPTED: usize = 16;
/// How long a listener rests after a connection could not be accepted, and how often the rates are taken.
const SECOND: Duration = Duration::from_secs(1);

/// A socket that takes a domain's connections.
struct Listener {
    socket: TcpListener,
    domain: usize,
    rests_until: Option<Instant>,
}

/// The program's sockets, with all that they work on.
pub struct Net {
    pub engine: Engine,
    pub log: Log,
    listeners: Vec<Listener>,
    connections: Vec<Connection>,
    startup: Duration,
    accepted: u64,
    capture: Option<Capture>,
    rates: Rates,
    buffer: Vec<u8>,
}

impl Net {
    /// Listens on the addresses of a configuration.
    pub fn listen(config: &Config, engine: Engine, mut log: Log) -> io::Result<Self> {
        let mut listeners = Vec::new();
        for (domain, address) in config.listen.iter().enumerate() {
            if let Some(address) = address {
                let tell = |error| io::Error::other(format!("domain {domain}: {address}: {error}"));
                let socket = TcpListener::bind(address).map_err(tell)?;
                socket.set_nonblocking(true)?;
                say!(log, "domain {domain} listens on {}", socket.local_addr()?);
                listeners.push(Listener {
                    socket,
                    domain,
                    rests_until: None,
                });
            }
        }
        log.flush();
        Ok(Net {
            engine,
            log,
            listeners,
            connections: Vec::new(),
            startup: config.startup,
            accepted: 0,
            capture: None,
            rates: Rates::new(),
            buffer: vec![0; ROUND],
        })
    }

    /// Captures what is received and sent from now on.
    pub fn capture(&mut self, path: &Path) -> io::Result<()> {
        self.capture = Some(Capture::create(path)?);
        self.engine.ends = Some(Vec::new());
        Ok(())
    }

    /// Gives where a domain is listened for.
    pub fn address(&self, domain: usize) -> io::Result<SocketAddr> {
        let mut found = self.listeners.iter().filter(|one| one.domain == domain);
        let listener = found.next().ok_or(io::ErrorKind::NotFound)?;
        listener.socket.local_addr()
    }

    /// Serves until the mark is set or standard input says so.
    pub fn run(
        &mut self,
        end: &AtomicBool,
        mut console: Option<Console>,
        status: Option<Duration>,
    ) -> io::Result<()> {
        let mut next_status = status.map(|every| Instant::now() + every);
        while !end.load(Ordering::SeqCst) {
            let waited = self.wait(console.as_ref(), next_status)?;
            let mut found = waited.iter();
            let asked = match &mut console {
                Some(reader) if found.next().is_some_and(Waited::is_readable) => reader.read(),
                _ => Vec::new(),
            };
            for line in asked {
                match line {
                    Asked::Quit => return Ok(()),
                    Asked::Status => self.write_status(),
                    Asked::Other(line) => {
                        say!(self.log, "`{line}` is neither status nor quit");
                    }
                    Asked::End => console = None,
                }
            }
            let (others, connections) = waited.split_at(waited.len() - self.connections.len());
            self.serve_connections(connections);
            self.accept(&others[others.len() - self.listeners.len()..]);
            self.expire();
            if self.rates.is_due() {
                self.engine.tick();
                self.rates.take(&self.engine);
            }
            if let (Some(at), Some(every)) = (next_status, status) {
                if Instant::now() >= at {
                    self.write_status();
                    next_status = Some(Instant::now() + every);
                }
            }
            self.flush();
        }
        Ok(())
    }

    /// Waits for what comes first: bytes, a connection, a line, a signal or a time.
    fn wait(&self, console: Option<&Console>, status: Option<Instant>) -> io::Result<Vec<Waited>> {
        let now = Instant::now();
        let mut files = Vec::with_capacity(8 + self.connections.len());
        if let Some(console) = console {
            files.push(Waited::new(console.as_fd(), READABLE));
        }
        for listener in &self.listeners {
            let wanted = if listener.is_resting(now) {
                0
            } else {
                READABLE
            };
            files.push(Waited::new(listener.socket.as_fd(), wanted));
        }
        for connection in &self.connections {
            let wanted = match connection.out.is_empty() {
                true => READABLE,
                false => READABLE | WRITABLE,
            };
            files.push(Waited::new(connection.socket.as_fd(), wanted));
        }
        let deadlines = self.connections.iter().filter_map(|one| one.deadline);
        let soonest = deadlines.chain(status).min();
        let most = soonest.map_or(SECOND, |at| {
            // A millisecond more than the time left: the wait counts whole ones.
            at.saturating_duration_since(now) + Duration::from_millis(1)
        });
        sys::wait(&mut files, most.min(SECOND))?;
        Ok(files)
    }

    /// Reads from each connection that has something, once, and writes to each that can be written to.
    fn serve_connections(&mut self, waited: &[Waited]) {
        let readable = waited.iter().filter(|one| one.is_readable()).count();
        let share = (ROUND / readable.max(1)).max(LEAST);
        for (connection, waited) in self.connections.iter_mut().zip(waited) {
            if waited.is_readable() {
                let (buffer, capture) = (&mut self.buffer[..share], self.capture.as_mut());
                connection.read(buffer, &mut self.engine, capture, &mut self.log);
            }
            if connection.over.is_none() && !connection.out.is_empty() {
                connection.write(self.capture.as_mut());
            }
        }
        self.remove_closed();
    }

    /// Lets go of the connections that are over.
    fn remove_closed(&mut self) {
        let mut at = 0;
        while at < self.connections.len() {
            match self.connections[at].over {
                None => at += 1,
                Some((why, reset)) => {
                    let connection = self.connections.remove(at);
                    self.drop_connection(connection, why, reset);
                }
            }
        }
    }

    /// Closes one connection.
    fn drop_connection(&mut self, mut connection: Connection, why: &str, reset: bool) {
        self.engine.close(&mut connection.peer, why, &mut self.log);
        if let (Some(capture), Some(flow)) = (&mut self.capture, &mut connection.flow) {
            capture.close(flow, reset);
        }
        if reset {
            sys::reset_on_close(&connection.socket);
        }
    }

    /// Accepts the connections that have come.
    fn accept(&mut self, waited: &[Waited]) {
        for (at, _) in waited
            .iter()
            .enumerate()
            .filter(|(_, one)| one.is_readable())
        {
            for _ in 0..ACCEPTED {
                let listener = &mut self.listeners[at];
                match listener.socket.accept() {
                    Ok((socket, address)) => {
                        let domain = listener.domain;
                        self.greet(socket, address, domain);
                    }
                    Err(error) if error.kind() == io::ErrorKind::WouldBlock => break,
                    Err(error) => {
                        let domain = listener.domain;
                        listener.rests_until = Some(Instant::now() + SECOND);
                        say!(self.log, "domain {domain} cannot accept: {error}");
                        break;
                    }
                }
            }
        }
    }

    /// Takes a new connection on.
    fn greet(&mut self, socket: TcpStream, address: SocketAddr, domain: usize) {
        self.accepted += 1;
        let id = self.accepted;
        say!(self.log, "#{id} {address} connects to domain {domain}");
        let set = socket.set_nonblocking(true);
        let own = socket.set_nodelay(true).and_then(|()| socket.local_addr());
        let own = match set.and(own) {
            Ok(own) => own,
            Err(error) => return say!(self.log, "#{id} closed: {error}"),
        };
        self.make_room(domain);
        let capture = self.capture.as_mut();
        self.connections.push(Connection {
            socket,
            peer: Peer::new(id, domain),
            out: Vec::new(),
            closing: false,
            deadline: Some(Instant::now() + self.startup),
            flow: capture.map(|capture| capture.open(address, own)),
            over: None,
        });
    }

    /// Closes the oldest connection of a domain that has no stream, where there are as many as may be.
    fn make_room(&mut self, domain: usize) {
        let starting = |one: &Connection| one.peer.domain == domain && !one.peer.is_open();
        if self.starting(domain) >= STARTING {
            if let Some(at) = self.connections.iter().position(starting) {
                let connection = self.connections.remove(at);
                self.drop_connection(connection, "too many are in their startup", true);
            }
        }
    }

    /// Counts a domain's connections that have no stream.
    fn starting(&self, domain: usize) -> usize {
        let all = self.connections.iter();
        all.filter(|one| one.peer.domain == domain && !one.peer.is_open())
            .count()
    }

    /// Closes the connections whose time is over.
    fn expire(&mut self) {
        let now = Instant::now();
        for connection in &mut self.connections {
            if connection.deadline.is_some_and(|at| at <= now) {
                connection.over = Some(match connection.closing {
                    true => ("declined", false),
                    false => ("its startup took too long", true),
                });
            }
        }
        self.remove_closed();
    }

    /// Writes each domain's status.
    fn write_status(&mut self) {
        for domain in 0..DOMAINS {
            let starting = self.starting(domain);
            let status = self.rates.status(&self.engine, domain, starting);
            say!(self.log, "{status}");
        }
        self.flush();
    }

    /// Writes out the log and the capture.
    fn flush(&mut self) {
        if let Some(Err(error)) = self.capture.as_mut().map(Capture::flush) {
            say!(self.log, "the capture ends here: {error}");
            self.capture = None;
        }
        self.log.flush();
    }

    /// Closes all connections.
    pub fn close(&mut self) {
        self.listeners.clear();
        for connection in std::mem::take(&mut self.connections) {
            self.drop_connection(connection, "this program ends", false);
        }
        self.flush();
    }
}

impl Listener {
    /// Says whether the listener rests.
    fn is_resting(&self, now: Instant) -> bool {
        self.rests_until.is_some_and(|until| now < until)
    }
}
