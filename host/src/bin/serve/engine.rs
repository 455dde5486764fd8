//! What is done with a connection's bytes: its startup, and then offers to the device. All protocol is the library's, and nothing
//! here knows a socket: bytes come in, bytes to send and a verdict come out.

mod report;
mod startup;

use rnic::{Device, Error, Offered, Reading, Rooms};

use crate::config::{Config, DOMAINS, STREAMS};
use crate::log::{counted, say, Log};

use report::fault_text;
use startup::gather;

/// What is to become of a connection after its bytes.
#[derive(Clone, Copy, Debug, PartialEq, Eq)]
pub enum Next {
    /// It goes on.
    Go,
    /// What is to be sent is sent, and then it is closed.
    Decline,
    /// It is closed at once.
    Abort,
}

/// How far a connection is.
enum Phase {
    /// Its startup frame is not whole yet.
    Startup(Vec<u8>),
    /// Its bytes go to a stream of the device.
    Open(usize),
    /// Nothing that it sends is looked at any more.
    Over,
}

/// A connection as the engine knows it.
pub struct Peer {
    /// Its number in the log.
    pub id: u64,
    pub domain: usize,
    phase: Phase,
    bytes: u64,
    fpdus: u64,
    messages: u64,
}

impl Peer {
    /// Gives a connection that has sent nothing yet.
    pub fn new(id: u64, domain: usize) -> Self {
        Peer {
            id,
            domain,
            phase: Phase::Startup(Vec::new()),
            bytes: 0,
            fpdus: 0,
            messages: 0,
        }
    }

    /// Says whether the connection has a stream.
    pub fn is_open(&self) -> bool {
        matches!(self.phase, Phase::Open(_))
    }
}

/// What was counted for a domain.
#[derive(Clone, Copy, Default)]
pub struct Counts {
    pub bytes: u64,
    pub fpdus: u64,
    pub messages: u64,
    pub refusals: u64,
    pub declined: u64,
}

/// The device with its store and its rooms, and who has which stream.
pub struct Engine {
    config: Config,
    device: Device,
    pub store: Vec<u8>,
    rooms: Rooms,
    taken: [bool; DOMAINS * STREAMS],
    pub counts: [Counts; DOMAINS],
    /// Where the frames end in the bytes that came last, for who wants to know.
    pub ends: Option<Vec<usize>>,
}

impl Engine {
    /// Opens the device of a configuration over a store, which has the length that the configuration says.
    pub fn new(config: Config, store: Vec<u8>) -> Result<Self, Error> {
        Ok(Engine {
            device: config.device()?,
            config,
            store,
            rooms: Rooms::new(),
            taken: [false; DOMAINS * STREAMS],
            counts: [Counts::default(); DOMAINS],
            ends: None,
        })
    }

    /// Takes bytes as TCP brought them, and adds what is to be sent to `out`.
    pub fn feed(
        &mut self,
        peer: &mut Peer,
        bytes: &[u8],
        out: &mut Vec<u8>,
        log: &mut Log,
    ) -> Next {
        peer.bytes += bytes.len() as u64;
        self.counts[peer.domain].bytes += bytes.len() as u64;
        if let Some(ends) = &mut self.ends {
            ends.clear();
        }
        let mut rest = bytes;
        if let Phase::Startup(held) = &mut peer.phase {
            match gather(held, &mut rest) {
                Ok(None) => return Next::Go,
                Ok(Some(request)) => match self.start(peer, request, out, log) {
                    Next::Go => (),
                    next => return next,
                },
                Err(error) => {
                    say!(log, "#{} {error}", peer.id);
                    return self.refuse(peer);
                }
            }
        }
        match peer.phase {
            Phase::Open(stream) => self.offer(peer, stream, bytes, rest, log),
            _ => Next::Decline,
        }
    }

    /// Counts a refusal of what came before there was a stream.
    fn refuse(&mut self, peer: &mut Peer) -> Next {
        self.counts[peer.domain].refusals += 1;
        peer.phase = Phase::Over;
        Next::Abort
    }

    /// Notes that a frame ends where only these bytes are left.
    fn note_end(&mut self, bytes: &[u8], rest: &[u8]) {
        if let Some(ends) = &mut self.ends {
            ends.push(bytes.len() - rest.len());
        }
    }

    /// Offers the rest of the bytes that came to a stream, FPDU by FPDU.
    fn offer(
        &mut self,
        peer: &mut Peer,
        stream: usize,
        bytes: &[u8],
        mut rest: &[u8],
        log: &mut Log,
    ) -> Next {
        self.note_end(bytes, rest);
        while !rest.is_empty() {
            let offered = self
                .device
                .offer(&mut self.store, &mut self.rooms, stream as u64, rest);
            match offered {
                Ok(Offered::Kept { .. }) => return Next::Go,
                Ok(Offered::Taken { taken, event, .. }) => {
                    peer.fpdus += 1;
                    self.counts[peer.domain].fpdus += 1;
                    rest = &rest[taken..];
                    self.note_end(bytes, rest);
                    if self.report(peer, stream, event, log) == Next::Abort {
                        return Next::Abort;
                    }
                }
                Ok(Offered::Ended(fault)) => {
                    self.counts[peer.domain].refusals += 1;
                    say!(log, "#{} refused {}", peer.id, fault_text(fault));
                    return Next::Abort;
                }
                Err(error) => {
                    self.counts[peer.domain].refusals += 1;
                    say!(log, "#{} {error}", peer.id);
                    return Next::Abort;
                }
            }
        }
        Next::Go
    }

    /// Lets a connection go, and its stream with it.
    pub fn close(&mut self, peer: &mut Peer, why: &str, log: &mut Log) {
        let mut left = String::new();
        if let Phase::Open(stream) = peer.phase {
            let held = self.device.held(stream as u64);
            if held > 0 {
                left = format!(
                    ", and {} of an unfinished FPDU",
                    counted(held.into(), "byte")
                );
            }
            let closed = self.device.close_stream(stream as u64);
            if let Err(error) = closed {
                say!(log, "#{} not closed: {error}", peer.id);
            }
            self.taken[stream] = false;
        }
        peer.phase = Phase::Over;
        say!(
            log,
            "#{} closed, {why}: {} in {}, {}{left}",
            peer.id,
            counted(peer.bytes, "byte"),
            counted(peer.fpdus, "FPDU"),
            counted(peer.messages, "message"),
        );
    }

    /// Says how many streams of a domain are open.
    pub fn open_streams(&self, domain: usize) -> usize {
        let streams = &self.taken[STREAMS * domain..STREAMS * (domain + 1)];
        streams.iter().filter(|&&taken| taken).count()
    }

    /// Makes what was placed for each domain since the last time a sample of its gauge: to be called once a second.
    pub fn tick(&mut self) {
        for domain in 0..DOMAINS as u64 {
            let _ = self.device.tick(domain);
        }
    }

    /// Gives how many windows of a domain are live.
    pub fn live_windows(&self, domain: usize) -> u32 {
        self.device.live_count(domain as u64).unwrap_or(0)
    }

    /// Gives what a domain's gauge says of the bytes that are placed a second.
    pub fn gauge(&self, domain: usize) -> String {
        match self.device.reading(domain as u64) {
            Ok(Reading::Steady(level)) => format!("steady at {level:.0}"),
            Ok(Reading::Falling { level, peak }) => format!("falling, {level:.0} of {peak:.0}"),
            Ok(Reading::Quiet) | Err(_) => String::from("quiet"),
        }
    }
}
