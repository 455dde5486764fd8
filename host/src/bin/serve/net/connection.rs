//! One connection: reading from its socket, and writing to it.

use std::io::{self, Read, Write};
use std::net::{Shutdown, TcpStream};
use std::time::{Duration, Instant};

use crate::engine::{Engine, Next, Peer};
use crate::log::Log;
use crate::pcap::{Capture, Flow};

/// How long a connection that was declined is listened to, so that its reply is not lost with a reset.
const DRAIN: Duration = Duration::from_secs(1);

/// A connection with its socket.
pub(super) struct Connection {
    pub(super) socket: TcpStream,
    pub(super) peer: Peer,
    /// What is still to be sent.
    pub(super) out: Vec<u8>,
    /// Whether the connection is closed once that is sent.
    pub(super) closing: bool,
    /// When it is closed if nothing changes: in its startup, and when it was declined.
    pub(super) deadline: Option<Instant>,
    pub(super) flow: Option<Flow>,
    /// Why it is closed, once it is to be, and whether by a reset.
    pub(super) over: Option<(&'static str, bool)>,
}

impl Connection {
    /// Reads what has come, once, and gives it to the engine.
    pub(super) fn read(
        &mut self,
        buffer: &mut [u8],
        engine: &mut Engine,
        mut capture: Option<&mut Capture>,
        log: &mut Log,
    ) {
        let count = match self.socket.read(buffer) {
            Ok(0) => {
                if let (Some(capture), Some(flow)) = (&mut capture, &mut self.flow) {
                    capture.ended(flow);
                }
                let why = if self.closing {
                    "declined"
                } else {
                    "by the peer"
                };
                self.over = Some((why, false));
                return;
            }
            Ok(count) => count,
            Err(error) if error.kind() == io::ErrorKind::WouldBlock => return,
            Err(error) if error.kind() == io::ErrorKind::Interrupted => return,
            Err(_) => {
                self.over = Some(("the connection was reset", true));
                return;
            }
        };
        let bytes = &buffer[..count];
        let next = match self.closing {
            true => Next::Decline,
            false => engine.feed(&mut self.peer, bytes, &mut self.out, log),
        };
        if let (Some(capture), Some(flow)) = (capture, &mut self.flow) {
            capture.received(flow, bytes, engine.ends.as_deref().unwrap_or_default());
        }
        match next {
            Next::Go if self.peer.is_open() => self.deadline = None,
            Next::Go => (),
            Next::Decline if self.closing => (),
            Next::Decline => {
                self.closing = true;
                self.deadline = Some(Instant::now() + DRAIN);
            }
            Next::Abort => self.over = Some(("refused", true)),
        }
    }

    /// Sends what is to be sent, as far as the socket takes it; the rest is tried again when it can be written to.
    pub(super) fn write(&mut self, capture: Option<&mut Capture>) {
        match self.socket.write(&self.out) {
            Ok(count) => {
                if let (Some(capture), Some(flow)) = (capture, &mut self.flow) {
                    capture.sent(flow, &self.out[..count]);
                }
                self.out.drain(..count);
                if self.out.is_empty() && self.closing {
                    let _ = self.socket.shutdown(Shutdown::Write);
                }
            }
            Err(error) if error.kind() == io::ErrorKind::WouldBlock => (),
            Err(error) if error.kind() == io::ErrorKind::Interrupted => (),
            Err(_) => self.over = Some(("the connection was reset", true)),
        }
    }
}
