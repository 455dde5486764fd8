//! What an FPDU reports: a message, whose buffer is posted again, reads, or the end.

use rnic::{Event, Fault};

use super::{Engine, Next, Peer};
use crate::log::{counted, say, Log};

impl Engine {
    /// Does what an FPDU asks for: a message's buffer is posted again, and reads are taken.
    pub(super) fn report(
        &mut self,
        peer: &mut Peer,
        stream: usize,
        event: Event,
        log: &mut Log,
    ) -> Next {
        match event {
            Event::None => {
                self.take_reads(peer, stream, log);
                Next::Go
            }
            Event::Send {
                start,
                length,
                opcode,
                invalidated,
            } => {
                peer.messages += 1;
                self.counts[peer.domain].messages += 1;
                let (id, number) = (peer.id, peer.messages);
                let name = send_name(opcode);
                let length = counted(u64::from(length), "byte");
                say!(log, "#{id} message {number}: {name} of {length} at {start}");
                if let Some(stag) = invalidated {
                    say!(log, "#{id} invalidated STag {stag:#x}");
                }
                self.post_again(peer, stream, u64::from(start), log)
            }
            Event::Terminate { layer, etype, code } => {
                let id = peer.id;
                say!(log, "#{id} the peer terminates: {layer}/{etype}/{code:02X}");
                Next::Abort
            }
        }
    }

    /// Posts a buffer again whose message has come.
    fn post_again(&mut self, peer: &mut Peer, stream: usize, start: u64, log: &mut Log) -> Next {
        let Some(buffers) = self.config.buffers[peer.domain] else {
            return Next::Go;
        };
        match self.device.post(stream as u64, start, buffers.length) {
            Ok(()) => Next::Go,
            Err(error) => {
                say!(log, "#{} no buffer: {error}", peer.id);
                Next::Abort
            }
        }
    }

    /// Takes the reads that wait, so that the queue does not fill up. Answering them is not in the library yet.
    fn take_reads(&mut self, peer: &Peer, stream: usize, log: &mut Log) {
        while let Ok(read) = self.device.take(stream as u64) {
            let (stag, to) = (read.source_stag, read.source_to);
            let size = counted(u64::from(read.size), "byte");
            say!(
                log,
                "#{} asks to read {size} of STag {stag:#x} at {to}: not answered, since this program cannot answer reads yet",
                peer.id
            );
        }
    }
}

/// Says what a Send's opcode is.
fn send_name(opcode: u8) -> &'static str {
    match opcode {
        4 => "Send with Invalidate",
        5 => "Send with Solicited Event",
        6 => "Send with Solicited Event and Invalidate",
        _ => "Send",
    }
}

/// Says what was wrong with the peer's bytes.
pub(super) fn fault_text(fault: Fault) -> String {
    let Fault {
        number,
        layer,
        etype,
        code,
    } = fault;
    let meaning = match fault.refusal() {
        Some(refusal) => refusal.to_string(),
        None => number.to_string(),
    };
    format!("{meaning} ({layer}/{etype}/{code:02X}; no Terminate is sent yet)")
}
