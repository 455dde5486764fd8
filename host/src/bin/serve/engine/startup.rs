//! The startup of a connection: its request gathered, and answered or declined.

use rnic::{answer, read_startup, write_startup};
use rnic::{Error, Form, Role, Startup, StartupRead, Terms};

use super::{Engine, Next, Peer, Phase};
use crate::config::STREAMS;
use crate::log::{say, Log};

/// The longest startup frame.
const LONGEST_STARTUP: usize = 532;

impl Engine {
    /// Answers a startup request: a free stream of the domain, and the terms.
    pub(super) fn start(
        &mut self,
        peer: &mut Peer,
        request: Startup,
        out: &mut Vec<u8>,
        log: &mut Log,
    ) -> Next {
        let own = self.config.terms;
        let crc = request.crc || self.config.crc;
        let first = STREAMS * peer.domain;
        let free = (first..first + STREAMS).find(|&stream| !self.taken[stream]);
        let Some(stream) = free else {
            let why = format!("no stream of domain {} is free", peer.domain);
            return self.decline(peer, request, &why, out, log);
        };
        let (form, agreed) = match request.form {
            Form::First => (Form::First, String::from("revision 1")),
            Form::Second => (Form::Second, String::from("revision 2")),
            Form::Enhanced(terms) => match answer(own, terms) {
                Ok(answered) => {
                    let kept = agreed(answered.kept);
                    (Form::Enhanced(answered.reply), kept)
                }
                Err(error) => {
                    let why = match error.refusal() {
                        Some(refusal) => refusal.to_string(),
                        None => error.to_string(),
                    };
                    return self.decline(peer, request, &why, out, log);
                }
            },
        };
        let opened = self.open(stream, crc);
        peer.phase = Phase::Open(stream);
        if let Err(error) = opened {
            say!(log, "#{} no stream: {error}", peer.id);
            return Next::Abort;
        }
        let crc_word = if crc { "on" } else { "off" };
        say!(
            log,
            "#{} opens stream {stream}: {agreed}, CRC {crc_word}",
            peer.id
        );
        let reply = Startup {
            crc,
            declined: false,
            form,
        };
        put_startup(reply, &[], out);
        Next::Go
    }

    /// Opens a stream and posts its buffers.
    fn open(&mut self, stream: usize, crc: bool) -> Result<(), Error> {
        self.taken[stream] = true;
        self.device.open_stream(stream as u64, crc)?;
        if let Some(buffers) = self.config.buffers[stream / STREAMS] {
            for place in buffers.places(stream % STREAMS) {
                self.device.post(stream as u64, place, buffers.length)?;
            }
        }
        Ok(())
    }

    /// Answers a startup request by a reply that declines, in the request's form, with the reason as its private data.
    fn decline(
        &mut self,
        peer: &mut Peer,
        request: Startup,
        why: &str,
        out: &mut Vec<u8>,
        log: &mut Log,
    ) -> Next {
        let form = match request.form {
            Form::Enhanced(terms) => Form::Enhanced(Terms {
                peer: terms.peer,
                ..self.config.terms
            }),
            other => other,
        };
        let reply = Startup {
            crc: request.crc || self.config.crc,
            declined: true,
            form,
        };
        put_startup(reply, why.as_bytes(), out);
        say!(log, "#{} declined: {why}", peer.id);
        self.counts[peer.domain].declined += 1;
        peer.phase = Phase::Over;
        Next::Decline
    }
}

/// Gathers a startup frame, and no byte more, from the front of `rest`; gives it once it is whole.
pub(super) fn gather(held: &mut Vec<u8>, rest: &mut &[u8]) -> Result<Option<Startup>, Error> {
    loop {
        match read_startup(Role::Request, held)? {
            StartupRead::Taken { frame, .. } => return Ok(Some(frame)),
            StartupRead::Wait(total) => {
                let count = total.saturating_sub(held.len()).min(rest.len());
                if count == 0 {
                    return Ok(None);
                }
                held.extend_from_slice(&rest[..count]);
                *rest = &rest[count..];
            }
        }
    }
}

/// Adds a reply to what is to be sent. The reasons that are given are short, so that it is never refused.
fn put_startup(reply: Startup, data: &[u8], out: &mut Vec<u8>) {
    let mut frame = [0; LONGEST_STARTUP];
    if let Ok(length) = write_startup(Role::Reply, reply, data, &mut frame) {
        out.extend_from_slice(&frame[..length]);
    }
}

/// Says what was agreed on by a startup with terms.
fn agreed(kept: Terms) -> String {
    let Terms {
        peer,
        ird,
        ord,
        kinds,
    } = kept;
    let model = match (peer, kinds) {
        (false, _) => "client-server",
        (true, rnic::KIND_SEND) => "peer-to-peer, a Send first",
        (true, rnic::KIND_WRITE) => "peer-to-peer, a Write first",
        (true, _) => "peer-to-peer, a Read first",
    };
    format!("revision 2, IRD {ird}, ORD {ord}, {model}")
}
