//! The offer calls of a night: FPDUs cut anywhere, the rest offered at once, later or never.

use super::nights::Night;
use super::segments::{fpdu, kind, Kind};
use crate::hex;
use crate::mpa::{CRC_FIELD, MAX_FPDU};
use crate::state::{HELD, STREAMS};

/// The most bytes that are offered one by one.
const DRIPPED: usize = 36;

impl Night {
    /// Says whether a stream holds bytes.
    pub(super) fn holds(&self, stream: usize) -> bool {
        !self.interpreter.device.streams[stream].held.is_empty()
    }

    /// Offers an FPDU that is most often good: whole, in pieces, or a piece of it that is left lying.
    pub(super) fn offer(&mut self, stream: usize) {
        if self.holds(stream) {
            return self.go_on(stream);
        }
        let kind = kind(&mut self.prng);
        self.prepare(stream, kind);
        let (device, faulty) = (&self.interpreter.device, self.faulty);
        self.rest[stream] = fpdu(&mut self.prng, device, stream, kind, faulty);
        match self.prng.below(100) {
            0..=3 => self.drip(stream),
            4..=49 => drop(self.offer_piece(stream)),
            _ => self.offer_rest(stream),
        }
    }

    /// Goes on with a stream that holds bytes: its rest, more bytes where there is no rest, or close.
    pub(super) fn go_on(&mut self, stream: usize) {
        if self.rest[stream].is_empty() {
            if self.prng.percent(40) {
                return self.numbered("close", stream, STREAMS);
            }
            let (prng, device) = (&mut self.prng, &self.interpreter.device);
            self.rest[stream] = match prng.percent(50) {
                true => fpdu(prng, device, stream, Kind::Write, 0),
                false => prng.draw().to_be_bytes().to_vec(),
            };
        }
        match self.prng.below(100) {
            0..=4 => self.drip(stream),
            5..=54 => drop(self.offer_piece(stream)),
            55 => self.numbered("close", stream, STREAMS),
            _ => self.offer_rest(stream),
        }
    }

    /// Offers several FPDUs of one slice: pieces that end inside one, at its end or behind it, what was not taken again.
    pub(super) fn offer_batch(&mut self, stream: usize, faulty: u64) {
        if self.holds(stream) {
            return self.go_on(stream);
        }
        for kind in [Kind::Write, Kind::Send, Kind::Read] {
            self.prepare(stream, kind);
        }
        (0..2).for_each(|_| self.post(stream));
        self.rest[stream] = self.batch_bytes(stream, faulty);
        self.offer_rest(stream);
    }

    /// Offers an FPDU in pieces, and says whether it was taken.
    pub(super) fn offer_whole(&mut self, stream: usize, bytes: Vec<u8>) -> bool {
        self.rest[stream] = bytes;
        self.offer_rest(stream);
        self.rest[stream].is_empty() && !self.holds(stream)
    }

    /// Offers pieces of the rest until nothing is left of it, a call is refused, or, now and then, no further.
    fn offer_rest(&mut self, stream: usize) {
        while !self.rest[stream].is_empty() && self.left > 0 {
            if !self.offer_piece(stream) || self.prng.percent(4) {
                return;
            }
        }
    }

    /// Offers the rest byte by byte, as far as that is short.
    fn drip(&mut self, stream: usize) {
        for _ in 0..DRIPPED {
            if self.rest[stream].is_empty() || self.left == 0 || !self.offer_bytes(stream, 1) {
                return;
            }
        }
    }

    /// Offers a piece of the rest, asks now and then what is held, and says whether the call was not refused.
    fn offer_piece(&mut self, stream: usize) -> bool {
        let length = self.piece(self.rest[stream].len());
        let taken = self.offer_bytes(stream, length);
        if self.prng.percent(8) {
            self.numbered("held", stream, STREAMS);
        }
        taken
    }

    /// Picks a count of bytes of a rest: often all, all before the CRC, or as many as there chance to be.
    fn piece(&mut self, rest: usize) -> usize {
        match self.prng.below(20) {
            0 => 0,
            1 | 2 => self.prng.pick(&[1, 2, 3]).min(rest),
            3..=5 => rest.saturating_sub(CRC_FIELD),
            6 => rest.saturating_sub(1),
            7..=11 => self.prng.index(rest + 1),
            _ => rest,
        }
    }

    /// Offers so many bytes of the rest, which keeps those that are not taken, and says whether the call was not refused.
    fn offer_bytes(&mut self, stream: usize, length: usize) -> bool {
        let bytes = hex::encode(&self.rest[stream][..length]);
        let number = self.number(stream, STREAMS);
        let slices = self.slices();
        let answer = self.say(format!("offer {number} {bytes}{slices}"));
        let mut words = answer.split(' ');
        match (words.next(), words.next().map(str::parse::<usize>)) {
            (Some("took"), Some(Ok(took))) => drop(self.rest[stream].drain(..took)),
            _ => return false,
        }
        true
    }

    /// Gives the words of other lent lengths, of the store and now and then of the second slice too.
    fn slices(&mut self) -> String {
        let lent = self.lent();
        if !self.prng.percent(2) {
            return lent;
        }
        let held = HELD as u64;
        let held = match self.prng.below(8) {
            0 => held - 1,
            1 => held + 1,
            2 => self.prng.below(held),
            3 => self.prng.pick(&[0, MAX_FPDU as u64, 32_896, u64::MAX]),
            _ => held,
        };
        let length = self.interpreter.device.length.min(self.store());
        match lent.is_empty() {
            true => format!(" {length} {held}"),
            false => format!("{lent} {held}"),
        }
    }
}
