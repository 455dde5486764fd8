//! The calls of a night but receive and offer, most of them good.

use super::malformed::malform;
use super::nights::Night;
use super::places::gaps;
use crate::hex;
use crate::state::{stream_domain, Part, RIGHT_WRITE};
use crate::state::{DOMAINS, STREAMS, WINDOWS, WINDOWS_PER_DOMAIN};

/// Of how many such lengths a small part has room for what peers are to write to.
const SHARES: u64 = 24;

/// The calls that are now and then oddly written.
const ODD: [&str; 8] = [
    "take", "close", "live", "free", "drop", "held", "tick", "reading",
];

impl Night {
    /// Calls with a number, which is now and then out of range.
    pub(super) fn numbered(&mut self, word: &str, number: usize, limit: usize) {
        let number = self.number(number, limit);
        self.say(format!("{word} {number}"));
    }

    /// Gives the number, or seldom one that is out of range.
    pub(super) fn number(&mut self, number: usize, limit: usize) -> u64 {
        match self.prng.percent(2) {
            true => self.prng.pick(&[limit as u64, limit as u64 + 1, u64::MAX]),
            false => number as u64,
        }
    }

    /// Opens a stream.
    pub(super) fn open_stream(&mut self, stream: usize) {
        let number = self.number(stream, STREAMS);
        let crc = self.prng.pick(&["on", "off"]);
        self.say(format!("stream {number} {crc}"));
    }

    /// Picks a place and a length, which mostly lie inside a part.
    fn extent(&mut self, part: Part, usual: u64) -> (u64, u64) {
        let prng = &mut self.prng;
        let most = part.end - part.start;
        let length = match prng.below(12) {
            0 => most,
            1 => prng.between(1, most.max(1)),
            2 => 1,
            _ => prng.between(1, usual.min(most.max(1))),
        };
        let last = part.end.saturating_sub(length).max(part.start);
        match prng.below(40) {
            0 => (part.start.wrapping_sub(1), length),
            1 => (last + 1, length),
            2 => (part.start, 0),
            3 => (prng.draw(), length),
            4 => (last, (u64::MAX - last).wrapping_add(prng.below(2))),
            5 | 6 => (part.start, length),
            7 | 8 => (last, length),
            _ => (prng.between(part.start, last), length),
        }
    }

    /// Picks a place and a length for what peers are to write to, mostly where the domain has no such thing yet: up to its
    /// neighbours, away from them or, now and then, a byte into one.
    fn own_extent(&mut self, domain: usize, usual: u64) -> (u64, u64) {
        let part = self.interpreter.device.parts[domain];
        let usual = usual.min((part.end - part.start) / SHARES).max(1);
        let (place, length) = self.extent(part, usual);
        let gaps = gaps(&self.interpreter.device, domain);
        let prng = &mut self.prng;
        if !part.holds(place, length) || gaps.is_empty() || prng.percent(4) {
            return (place, length);
        }
        let gap = gaps[prng.index(gaps.len())].clone();
        let room = gap.end - gap.start;
        let length = length.min(usual.max(room / 3)).min(room);
        let last = gap.end - length;
        match prng.below(40) {
            0 => (gap.start.wrapping_sub(1), length),
            1 => (last + 1, length),
            2..=15 => (gap.start, length),
            16..=25 => (last, length),
            _ => (prng.between(gap.start, last), length),
        }
    }

    /// Registers a window of a domain with these rights or any, most often in the lowest free slot.
    pub(super) fn register(&mut self, domain: usize, rights: Option<u8>) {
        let free = self.interpreter.device.free(domain as u64).unwrap_or(0);
        let slot = match self.prng.percent(80) {
            true => free.min(WINDOWS_PER_DOMAIN - 1),
            false => self.prng.index(WINDOWS_PER_DOMAIN),
        };
        let window = self.number(domain * WINDOWS_PER_DOMAIN + slot, WINDOWS);
        let prng = &mut self.prng;
        let rights = match (rights, prng.below(60)) {
            (Some(rights), _) => u64::from(rights),
            (None, 0) => prng.pick(&[0, 4, u64::MAX]),
            (None, _) => prng.between(1, 3),
        };
        let (place, length) = match rights & u64::from(RIGHT_WRITE) {
            0 => self.extent(self.interpreter.device.parts[domain], 120),
            _ => self.own_extent(domain, 120),
        };
        let (key, base) = (self.key(), self.base(length));
        self.say(format!(
            "register {window} {key} {base} {length} {place} {rights}"
        ));
    }

    /// Picks a key: half of them of four, so that keys come again, a few out of range.
    fn key(&mut self) -> u64 {
        match self.prng.below(60) {
            0 => self.prng.pick(&[0, 256, u64::MAX]),
            1..=30 => self.prng.between(1, 4),
            _ => self.prng.between(1, 255),
        }
    }

    /// Picks a base for a window of this length, at times the highest or one above it.
    fn base(&mut self, length: u64) -> u64 {
        let top = u64::MAX.wrapping_sub(length);
        match self.prng.below(12) {
            0..=2 => 0,
            3..=5 => self.prng.below(5000),
            6 | 7 => top,
            8 if self.prng.percent(40) => top.wrapping_add(1),
            _ => self.prng.draw() >> 1,
        }
    }

    /// Drops a window of a domain, most often a live one.
    pub(super) fn drop_window(&mut self, domain: usize) {
        let first = domain * WINDOWS_PER_DOMAIN;
        let slots = first..first + WINDOWS_PER_DOMAIN;
        let live: Vec<usize> = slots
            .filter(|&number| self.interpreter.device.windows[number].live)
            .collect();
        let window = match live.is_empty() || self.prng.percent(25) {
            true => first + self.prng.index(WINDOWS_PER_DOMAIN),
            false => self.prng.pick(&live),
        };
        self.numbered("drop", window, WINDOWS);
    }

    /// Posts a buffer.
    pub(super) fn post(&mut self, stream: usize) {
        let (start, length) = self.own_extent(stream_domain(stream), 90);
        let number = self.number(stream, STREAMS);
        self.say(format!("post {number} {start} {length}"));
    }

    /// Gives a range of at most `most` bytes inside the part of one of its domains.
    fn range(&mut self, most: u64) -> (u64, u64) {
        let domain = self.prng.pick(&self.domains);
        let part = self.interpreter.device.parts[domain];
        let start = self.prng.between(part.start, part.end);
        (start, self.prng.below(most.min(part.end - start + 1)))
    }

    /// Shows some bytes of the store; where it plays every domain, also past a part or the store.
    pub(super) fn show(&mut self) {
        let (inside, store) = (self.range(200), self.store());
        let prng = &mut self.prng;
        let (start, length) = match prng.below(10) {
            0 => (0, 5000),
            1 => (store.saturating_sub(prng.below(20)), prng.below(20)),
            2 => (prng.draw(), prng.below(10)),
            _ => inside,
        };
        let (start, length) = if self.is_whole() {
            (start, length)
        } else {
            inside
        };
        self.say(format!("bytes {start} {length}"));
    }

    /// Sets some bytes of the store; where it plays every domain, also past a part or the store.
    pub(super) fn fill(&mut self) {
        let (start, length) = self.range(40);
        let bytes = self.prng.bytes(length as usize);
        let start = match self.prng.below(8) {
            0 if self.is_whole() => self.store().saturating_sub(self.prng.below(40)),
            1 if self.is_whole() => self.prng.below(self.interpreter.device.length.max(100)),
            _ => start,
        };
        self.say(format!("fill {start} {}", hex::encode(&bytes)));
    }

    /// Ticks, asks for the reading, or both; now and then so often that the level falls far, with a reading here and there.
    pub(super) fn watch(&mut self, domain: usize) {
        let ticks = match self.prng.below(20) {
            0..=3 => 0,
            4..=12 => 1,
            _ => self.prng.between(6, 14),
        };
        for _ in 0..ticks {
            self.numbered("tick", domain, DOMAINS);
            if self.prng.percent(35) {
                self.numbered("reading", domain, DOMAINS);
            }
        }
        if ticks != 1 || self.prng.percent(50) {
            self.numbered("reading", domain, DOMAINS);
        }
    }

    /// Says a line that is oddly written.
    pub(super) fn odd_line(&mut self, stream: usize) {
        let word = self.prng.pick(&ODD);
        let line = malform(&mut self.prng, format!("{word} {stream}").as_bytes());
        self.say(line);
    }
}
