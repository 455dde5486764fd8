//! Scripts of messages: begun, written one segment at a time, and each segment framed and received or offered in pieces.

use std::io::{self, Write};

use super::draft::frame;
use super::faults::damage;
use super::frames::room;
use super::malformed::malform;
use super::nights::{write_steps, Night, EVERY};
use super::places::gaps;
use super::prng::Prng;
use super::segments::{inside, length_up_to, live_window};
use crate::ddp::{TAGGED_HEADER, UNTAGGED_HEADER};
use crate::hex;
use crate::mpa::MAX_ULPDU;
use crate::rdmap;
use crate::sender::MIN_ULPDU;
use crate::state::{
    stream_domain, Condition, DOMAINS, RIGHT_READ, RIGHT_WRITE, STREAMS, WINDOWS_PER_DOMAIN,
};

/// The largest size that a message may be cut to.
const LIMIT: u64 = MAX_ULPDU as u64;
/// Bytes of the headers of a Write's and of a Send's segments.
const TAGGED: u64 = TAGGED_HEADER as u64;
const UNTAGGED: u64 = UNTAGGED_HEADER as u64;

/// Writes a script of `count` lines, the last of which shows the whole store.
pub fn write_script(seed: u64, count: u64, out: impl Write) -> io::Result<()> {
    let night = Night::new(seed, EVERY.to_vec(), count);
    write_steps(night, Night::message_step, out)
}

/// A message as a script begins it: the words before its bytes, and its length.
struct Begun {
    words: String,
    length: u64,
}

/// Picks a length up to `most` for a message with this header, at times one that just fills the longest segments, or nearly
/// so.
fn message_length(prng: &mut Prng, header: u64, most: u64) -> u64 {
    let full = LIMIT - header;
    match most > full && prng.percent(15) {
        true => prng.pick(&[full - 1, full, full + 1, (2 * full).min(most)]),
        false => length_up_to(prng, most.min(12_000)),
    }
}

impl Night {
    /// Goes one step on: an opening where the device has no store, a line that is refused or odd, or a whole message.
    fn message_step(&mut self) {
        let length = self.interpreter.device.length;
        if length == 0 || length > self.store() || self.prng.below(60) == 0 {
            self.open_quarters();
            return;
        }
        match self.prng.below(100) {
            0..=4 => self.odd_message(),
            5..=16 => self.refused_message(),
            17 => drop(self.ask(0)),
            _ => self.deliver(),
        }
    }

    /// Opens the device with a quarter for each domain.
    fn open_quarters(&mut self) {
        let length = self.prng.pick(&[4096u64, 16_384, 65_536, 262_144]);
        let ends: Vec<String> = (0..DOMAINS as u64)
            .map(|domain| [domain, domain + 1].map(|end| (end * length / 4).to_string()))
            .map(|ends| ends.join(" "))
            .collect();
        self.say(format!("open {length} {}", ends.join(" ")));
    }

    /// Says a line about a message that is oddly written.
    fn odd_message(&mut self) {
        let line = self.prng.pick(&[
            "message write 40 1 2 0a0b",
            "message send 40 4 1 2 0a0b",
            "message write 40 1 2 -",
            "message read 40 1 2 -",
            "message",
            "segment",
            "segment 100",
            "segment 100 100",
            "segments 100",
            "segment -",
        ]);
        let line = malform(&mut self.prng, line.as_bytes());
        self.say(line);
    }

    /// Begins a message that is refused, or nearly so.
    fn refused_message(&mut self) {
        const OVER: u64 = 1 << 32;
        let prng = &mut self.prng;
        let limit = match prng.below(3) {
            0 => prng.pick(&[0, 1, 14, 15, 18, 19, 2049]),
            1 => prng.pick(&[LIMIT, LIMIT + 1, 65_536, u64::MAX]),
            _ => prng.between(MIN_ULPDU, LIMIT),
        };
        let good = prng.percent(50);
        let stag = match good {
            true => prng.below(OVER),
            false => prng.pick(&[0, OVER - 1, OVER, u64::MAX]),
        };
        let length = prng.index(6);
        let bytes = prng.bytes(length);
        let bytes = hex::encode(&bytes);
        let line = if prng.percent(50) {
            let end = 0u64.wrapping_sub(length as u64);
            let to = match good {
                true => prng.draw() >> 1,
                false => prng.pick(&[0, end.wrapping_sub(1), end, end.wrapping_add(1), u64::MAX]),
            };
            format!("message write {limit} {stag} {to} {bytes}")
        } else {
            let opcode = match good {
                true => prng.between(3, 6),
                false => prng.pick(&[0, 2, 3, 4, 5, 6, 7, 256 + 3, u64::MAX]),
            };
            let msn = match good {
                true => prng.below(OVER),
                false => prng.pick(&[0, 1, OVER - 1, OVER, u64::MAX]),
            };
            format!("message send {limit} {opcode} {msn} {stag} {bytes}")
        };
        self.say(line);
    }

    /// Begins a message that a stream can take, asks for its segments, and has the stream receive them.
    fn deliver(&mut self) {
        let stream = self.prng.index(STREAMS);
        match self.interpreter.device.streams[stream].condition {
            Condition::Open if !self.holds(stream) => (),
            Condition::Closed => self.open_stream(stream),
            _ => {
                self.say(format!("close {stream}"));
                self.open_stream(stream);
            }
        }
        let begun = match self.prng.percent(50) {
            true => self.a_write(stream),
            false => self.a_send(stream),
        };
        let bytes = self.prng.bytes(begun.length as usize);
        self.say(format!("message {} {}", begun.words, hex::encode(&bytes)));
        self.receive_segments(stream);
        if self.prng.percent(30) {
            drop(self.ask(0));
        }
        if self.prng.percent(30) {
            self.show();
        }
    }

    /// Picks a size for a message with this header: the ends, and others, of which some cut it into many segments.
    fn limit(&mut self, header: u64, length: u64) -> u64 {
        let prng = &mut self.prng;
        if length + header >= LIMIT && prng.percent(50) {
            return LIMIT;
        }
        let any = prng.between(MIN_ULPDU, LIMIT);
        let limit = prng.pick(&[19, 20, 33, 100, 1500, 2048, LIMIT, header + 8, any]);
        match length / (limit - header) > 12 {
            true => prng
                .between(header + length / 12, LIMIT)
                .clamp(MIN_ULPDU, LIMIT),
            false => limit,
        }
    }

    /// Gives now and then half of the largest range of a domain's part that nothing is to be written to yet.
    fn large(&mut self, domain: usize) -> Option<(u64, u64)> {
        let gaps = gaps(&self.interpreter.device, domain);
        let gap = gaps.into_iter().max_by_key(|gap| gap.end - gap.start)?;
        let length = (gap.end - gap.start) / 2;
        (length > 0 && self.prng.percent(40)).then_some((gap.start, length))
    }

    /// Chooses a Write into a window of the stream's domain, which now and then does not fit.
    fn a_write(&mut self, stream: usize) -> Begun {
        let domain = stream_domain(stream);
        let device = &self.interpreter.device;
        if live_window(&mut self.prng, device, stream, RIGHT_WRITE).is_none() {
            match self.large(domain) {
                Some((place, length)) => {
                    let window = domain * WINDOWS_PER_DOMAIN + self.prng.index(WINDOWS_PER_DOMAIN);
                    let key = self.prng.between(1, 255);
                    self.say(format!("register {window} {key} 0 {length} {place} 1"));
                }
                None => self.register(domain, Some(RIGHT_WRITE)),
            }
        }
        let (prng, device) = (&mut self.prng, &self.interpreter.device);
        let Some((stag, window)) = live_window(prng, device, stream, RIGHT_WRITE) else {
            let words = format!("write 100 {} {}", prng.draw() as u32, prng.below(9999));
            return Begun { words, length: 7 };
        };
        let length = message_length(prng, TAGGED, window.length);
        let to = inside(prng, &window, length);
        let length = length + u64::from(prng.percent(4));
        let limit = self.limit(TAGGED, length);
        let words = format!("write {limit} {stag} {to}");
        Begun { words, length }
    }

    /// Chooses a Send into the stream's first buffer, which now and then does not fit.
    fn a_send(&mut self, stream: usize) -> Begun {
        if self.interpreter.device.streams[stream].buffers.is_empty() {
            match self.large(stream_domain(stream)) {
                Some((start, length)) => drop(self.say(format!("post {stream} {start} {length}"))),
                None => self.post(stream),
            }
        }
        let opcode = self.prng.between(3, 6);
        let any = RIGHT_WRITE | RIGHT_READ;
        let device = &self.interpreter.device;
        let mut live = live_window(&mut self.prng, device, stream, any);
        if live.is_none() && rdmap::invalidates(opcode as u8) {
            self.register(stream_domain(stream), None);
            live = live_window(&mut self.prng, &self.interpreter.device, stream, any);
        }
        let (prng, device) = (&mut self.prng, &self.interpreter.device);
        let record = &device.streams[stream];
        let stag = live.map_or(prng.draw(), |(stag, _)| u64::from(stag));
        let space = record.buffers.first().map_or(9, |buffer| buffer.length);
        let length = message_length(prng, UNTAGGED, space) + u64::from(prng.percent(4));
        let msn = u64::from(record.next_msn[0]);
        let msn = if prng.percent(4) { msn + 1 } else { msn };
        let limit = self.limit(UNTAGGED, length);
        let words = format!("send {limit} {opcode} {msn} {stag}");
        Begun { words, length }
    }

    /// Asks for the segment that is next, with room that is now and then too small, and gives it.
    fn ask(&mut self, needed: usize) -> Option<Vec<u8>> {
        let room = match self.prng.percent(60) {
            true => self.prng.pick(&[LIMIT, 65_536, u64::MAX]),
            false => room(&mut self.prng, needed),
        };
        let answer = self.say(format!("segment {room}"));
        let mut words = answer.split(' ');
        match (words.next(), words.nth(1)) {
            (Some("wrote"), Some(bytes)) => hex::decode(bytes.as_bytes()),
            (Some("end") | Some(""), _) => None,
            _ => Some(Vec::new()),
        }
    }

    /// Asks for the segments of the message begun last, and receives them until one is not taken.
    fn receive_segments(&mut self, stream: usize) {
        let mut taken = true;
        while self.left > 0 {
            let needed = self.interpreter.next_segment();
            let Some(ulpdu) = self.ask(needed) else {
                return;
            };
            if ulpdu.is_empty() || !taken {
                continue;
            }
            let bytes = match self.prng.below(100) {
                0..=2 => damage(&mut self.prng, ulpdu, 0),
                3 => continue,
                4 => return,
                _ => frame(&ulpdu, 0),
            };
            taken = match self.prng.percent(25) {
                true => self.offer_whole(stream, bytes),
                false => self
                    .say(format!("receive {stream} {}", hex::encode(&bytes)))
                    .starts_with("taken"),
            };
            if !taken && self.prng.percent(70) {
                return;
            }
        }
    }
}
