//! Writes and Sends of the longest ULPDU, or a few bytes from it, where a domain's part has room for one.

use super::draft::{frame, Draft};
use super::nights::Night;
use super::places::gaps;
use super::segments::{stag, Kind, MAX_TAGGED, MAX_UNTAGGED};
use crate::hex;
use crate::rdmap;
use crate::state::{stream_domain, STREAMS, WINDOWS_PER_DOMAIN};

impl Night {
    /// Receives or offers such a segment, or any where there is no room.
    pub(super) fn longest(&mut self, stream: usize) {
        if self.holds(stream) {
            return self.go_on(stream);
        }
        let domain = stream_domain(stream);
        let gaps = gaps(&self.interpreter.device, domain);
        let Some(gap) = gaps.into_iter().max_by_key(|gap| gap.end - gap.start) else {
            return self.receive(stream);
        };
        let kind = self.prng.pick(&[Kind::Write, Kind::Send]);
        let most = match kind {
            Kind::Write => MAX_TAGGED,
            _ => MAX_UNTAGGED,
        };
        // The place for it is mostly as long as it is, seldom a byte longer or shorter.
        let length = self.prng.pick(&[most, most, most, most + 1, most - 1]);
        if gap.end - gap.start < length {
            return self.receive(stream);
        }
        let start = self.prng.pick(&[gap.start, gap.end - length]);
        let mut draft = match kind {
            Kind::Write => self.write_to_new(domain, start, length),
            _ => self.send_to_new(stream, start, length),
        };
        let length = self.prng.pick(&[most, most, most, most - 1, most + 1]);
        draft.payload = self.prng.bytes(length as usize);
        let bytes = frame(&draft.ulpdu(), 0);
        match self.prng.percent(40) {
            true => drop(self.say(format!("receive {stream} {}", hex::encode(&bytes)))),
            false => drop(self.offer_whole(stream, bytes)),
        }
        if self.prng.percent(70) {
            self.clear(stream, kind, &draft);
        }
    }

    /// Registers a window for a Write there, in a slot that is made free where none is, and drafts the Write.
    fn write_to_new(&mut self, domain: usize, place: u64, length: u64) -> Draft {
        let free = self.interpreter.device.free(domain as u64).unwrap_or(0);
        let slot = free.min(WINDOWS_PER_DOMAIN - 1);
        let number = domain * WINDOWS_PER_DOMAIN + slot;
        if free > slot {
            self.say(format!("drop {number}"));
        }
        let (key, base) = (self.prng.between(1, 255), self.prng.draw() >> 1);
        let rights = self.prng.pick(&[1, 3]);
        self.say(format!(
            "register {number} {key} {base} {length} {place} {rights}"
        ));
        Draft {
            stag: stag(number as u64, key as u8),
            to: base,
            ..Draft::new(true, rdmap::WRITE)
        }
    }

    /// Opens a stream anew with a buffer there, and drafts its first Send.
    fn send_to_new(&mut self, stream: usize, start: u64, length: u64) -> Draft {
        self.say(format!("close {stream}"));
        self.open_stream(stream);
        self.say(format!("post {stream} {start} {length}"));
        Draft::new(false, rdmap::SEND)
    }

    /// Frees the place again.
    fn clear(&mut self, stream: usize, kind: Kind, draft: &Draft) {
        match kind {
            Kind::Write => drop(self.say(format!("drop {}", draft.stag >> 8))),
            _ => self.numbered("close", stream, STREAMS),
        }
    }
}
