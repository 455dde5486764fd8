//! The receive calls of a night: single FPDUs, and several in one slice.

use super::draft::{frame, Draft};
use super::faults::other_domain;
use super::nights::Night;
use super::segments::{fpdu, kind, live_window, Kind};
use crate::hex;
use crate::rdmap;
use crate::state::{stream_domain, RIGHT_READ, RIGHT_WRITE, STREAMS};

/// The most bytes of several FPDUs in one slice; a line has room for twice as many digits.
const BATCH: usize = 32_000;

impl Night {
    /// Receives an FPDU that is most often good, now and then first cut, or with another store lent.
    pub(super) fn receive(&mut self, stream: usize) {
        let kind = kind(&mut self.prng);
        self.prepare(stream, kind);
        let (device, faulty) = (&self.interpreter.device, self.faulty);
        let bytes = fpdu(&mut self.prng, device, stream, kind, faulty);
        if self.prng.percent(4) {
            let cut = &bytes[..self.prng.index(bytes.len().max(1))];
            let cut = hex::encode(cut);
            self.say(format!("receive {stream} {cut}"));
        }
        let number = self.number(stream, STREAMS);
        let lent = self.lent();
        self.say(format!("receive {number} {}{lent}", hex::encode(&bytes)));
    }

    /// Makes what a good FPDU of this kind needs, where it is not there: a buffer, a window, mostly room for a read.
    pub(super) fn prepare(&mut self, stream: usize, kind: Kind) {
        let device = &self.interpreter.device;
        let record = &device.streams[stream];
        let right = match kind {
            Kind::Send if record.buffers.is_empty() => return self.post(stream),
            Kind::Read if record.reads.is_full() && self.prng.percent(80) => {
                return self.numbered("take", stream, STREAMS);
            }
            Kind::Write => RIGHT_WRITE,
            Kind::Read => RIGHT_READ,
            _ => return,
        };
        if live_window(&mut self.prng, device, stream, right).is_none() {
            self.register(stream_domain(stream), Some(right));
        }
    }

    /// Gives the word of another lent length, or nothing.
    pub(super) fn lent(&mut self) -> String {
        let length = self.interpreter.device.length;
        let store = self.store();
        if length == 0 && self.prng.percent(70) {
            return String::from(" 0");
        }
        let other = match self.prng.below(80) {
            0 | 1 => length,
            2 => length + 1,
            3 => length.saturating_sub(1),
            4 => self.prng.pick(&[0, store, store + 1, u64::MAX]),
            _ => return String::new(),
        };
        format!(" {other}")
    }

    /// Receives a good FPDU of a kind.
    pub(super) fn receive_good(&mut self, stream: usize, kind: Kind) {
        let bytes = fpdu(&mut self.prng, &self.interpreter.device, stream, kind, 0);
        self.say(format!("receive {stream} {}", hex::encode(&bytes)));
    }

    /// Receives or offers a Write that aims at another domain's window.
    pub(super) fn probe(&mut self, stream: usize) {
        if self.holds(stream) {
            return self.go_on(stream);
        }
        let (prng, device) = (&mut self.prng, &self.interpreter.device);
        let mut draft = Draft::new(true, rdmap::WRITE);
        draft.stag = other_domain(prng, device, stream_domain(stream) as u64);
        draft.payload = prng.bytes(1);
        let word = prng.pick(&["receive", "offer"]);
        let bytes = frame(&draft.ulpdu(), 0);
        self.say(format!("{word} {stream} {}", hex::encode(&bytes)));
    }

    /// Takes a read, mostly one that waits.
    pub(super) fn take(&mut self, stream: usize) {
        let reads = &self.interpreter.device.streams[stream].reads;
        if reads.is_empty() && self.prng.percent(85) {
            self.prepare(stream, Kind::Read);
            self.receive_good(stream, Kind::Read);
        }
        self.numbered("take", stream, STREAMS);
    }

    /// Receives several FPDUs of one slice, one call after the other.
    pub(super) fn batch(&mut self, stream: usize, faulty: u64) {
        for kind in [Kind::Write, Kind::Send, Kind::Read] {
            self.prepare(stream, kind);
        }
        (0..2).for_each(|_| self.post(stream));
        let mut slice = self.batch_bytes(stream, faulty);
        while !slice.is_empty() && self.left > 0 {
            let answer = self.say(format!("receive {stream} {}", hex::encode(&slice)));
            let mut words = answer.split(' ');
            match (words.next(), words.next().map(str::parse::<usize>)) {
                (Some("taken"), Some(Ok(total))) => slice.drain(..total),
                _ => return,
            };
        }
    }

    /// Makes several FPDUs that follow each other and fit into a line, tried on a copy of the device.
    pub(super) fn batch_bytes(&mut self, stream: usize, faulty: u64) -> Vec<u8> {
        let mut device = self.interpreter.device.clone();
        device.streams[stream].held.clear();
        let mut store = vec![0; device.length as usize];
        let mut slice = Vec::new();
        for _ in 0..self.prng.between(2, 5) {
            let kind = kind(&mut self.prng);
            let bytes = fpdu(&mut self.prng, &device, stream, kind, faulty);
            if slice.len() + bytes.len() > BATCH {
                break;
            }
            device.receive(&mut store, stream as u64, &bytes);
            slice.extend(bytes);
        }
        slice
    }
}
