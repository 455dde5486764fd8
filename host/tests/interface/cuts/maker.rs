//! Nights to be cut: lines of the host, and bytes that came for streams.

use oracle::generate::prng::Prng;
use oracle::generate::segments::{fpdu, kind};
use oracle::offer::Offered;
use oracle::script::Interpreter;
use oracle::state::{stream_domain, Condition, Device as Second, HELD, STREAMS};

use super::{PART, STORE};

/// Steps of a night.
const STEPS: usize = 160;
/// Buffers and windows of a domain stand in places of so many bytes, the windows first.
const PLACE: usize = 512;
/// Windows of a domain, of which the first is as long as a payload can be and stands at the end of the part.
const WINDOWS: usize = 6;
const LONGEST: usize = 8178;

/// A step of a night: a line of the host, or bytes that came for streams of different domains.
pub enum Step {
    Host(String),
    Came(Vec<(usize, Vec<u8>)>),
}

/// A night in the making: the second program runs alongside, uncut, and what came of a stream so far is not all of an FPDU.
pub struct Maker {
    prng: Prng,
    second: Interpreter,
    rest: [Vec<u8>; STREAMS],
    faulty: u64,
}

impl Maker {
    /// Makes the steps of a night.
    pub fn steps(seed: u64) -> Vec<Step> {
        let mut prng = Prng::new(seed);
        let faulty = prng.pick(&[0, 2, 10]);
        let mut maker = Maker {
            prng,
            second: Interpreter::with_store(STORE),
            rest: std::array::from_fn(|_| Vec::new()),
            faulty,
        };
        let parts: Vec<String> = (0..4)
            .map(|domain| format!("{} {}", domain * PART, (domain + 1) * PART))
            .collect();
        let opening = maker.host(format!("open {STORE} {}", parts.join(" ")));
        let mut steps = vec![opening];
        for domain in 0..4 {
            for slot in 0..WINDOWS {
                steps.push(maker.register(domain, slot));
            }
        }
        steps.extend((0..STEPS).map(|_| maker.step()));
        steps
    }

    /// Makes the next step.
    fn step(&mut self) -> Step {
        let stream = self.prng.index(STREAMS);
        let domain = stream_domain(stream);
        let ended = match self.second.device.streams[stream].condition {
            Condition::Closed => return self.open_stream(stream),
            Condition::Open => false,
            Condition::Faulted(_) | Condition::Terminated => true,
        };
        let waiting = self.second.device.streams[stream].buffers.len();
        match self.prng.below(100) {
            0..=1 => self.close(stream),
            2..=39 if ended => self.close(stream),
            2..=59 if waiting < 2 => self.post(stream),
            2..=4 => self.host(format!("take {stream}")),
            5..=6 => {
                let window = domain * 16 + self.prng.index(WINDOWS);
                self.host(format!("drop {window}"))
            }
            7..=12 => {
                let slot = self.prng.index(WINDOWS);
                self.register(domain, slot)
            }
            13..=19 => self.post(stream),
            20..=22 => self.host(format!("tick {domain}")),
            23..=24 => self.host(format!("reading {domain}")),
            _ => self.came(stream),
        }
    }

    /// Runs a line of the host.
    fn host(&mut self, line: String) -> Step {
        self.second.run_line(line.as_bytes());
        Step::Host(line)
    }

    /// Opens a stream, the CRC on or off.
    fn open_stream(&mut self, stream: usize) -> Step {
        let crc = if self.prng.percent(50) { "on" } else { "off" };
        self.host(format!("stream {stream} {crc}"))
    }

    /// Closes a stream, which loses what it holds.
    fn close(&mut self, stream: usize) -> Step {
        self.rest[stream].clear();
        self.host(format!("close {stream}"))
    }

    /// Registers a window of a domain in its own place.
    fn register(&mut self, domain: usize, slot: usize) -> Step {
        let (place, length) = match slot {
            0 => ((domain + 1) * PART - LONGEST, LONGEST),
            _ => (domain * PART + slot * PLACE, PLACE),
        };
        let (number, rights) = (domain * 16 + slot, self.prng.between(1, 3));
        let (key, base) = (self.prng.between(1, 255), self.prng.draw() >> 1);
        self.host(format!(
            "register {number} {key} {base} {length} {place} {rights}"
        ))
    }

    /// Posts a buffer behind the windows, in the first place that no buffer of its domain has where there is one.
    fn post(&mut self, stream: usize) -> Step {
        let domain = stream_domain(stream);
        let streams = &self.second.device.streams[domain * 4..domain * 4 + 4];
        let is_free = |start: &usize| {
            let mut buffers = streams.iter().flat_map(|stream| stream.buffers.iter());
            buffers.all(|buffer| buffer.start != *start as u64)
        };
        let mut places = (WINDOWS..(PART - LONGEST) / PLACE).map(|at| domain * PART + at * PLACE);
        let start = places.find(is_free).unwrap_or(domain * PART);
        self.host(format!("post {stream} {start} {PLACE}"))
    }

    /// Makes bytes for a stream and, now and then, for streams of other domains in the same step.
    fn came(&mut self, stream: usize) -> Step {
        let mut came = vec![(stream, self.bytes(stream))];
        for domain in 0..4 {
            let other = domain * 4 + self.prng.index(4);
            if domain != stream_domain(stream) && self.prng.percent(30) {
                came.push((other, self.bytes(other)));
            }
        }
        Step::Came(came)
    }

    /// Makes FPDUs that follow what came so far, of which the last may be left for later in part.
    fn bytes(&mut self, stream: usize) -> Vec<u8> {
        let mut bytes = std::mem::take(&mut self.rest[stream]);
        let mut ahead = Interpreter::with_store(STORE);
        ahead.device = self.second.device.clone();
        ahead.store = self.second.store.clone();
        offer_all(&mut ahead.device, &mut ahead.store, stream, &bytes);
        for _ in 0..self.prng.between(1, 4) {
            let kind = kind(&mut self.prng);
            let frame = fpdu(&mut self.prng, &ahead.device, stream, kind, self.faulty);
            offer_all(&mut ahead.device, &mut ahead.store, stream, &frame);
            bytes.extend(frame);
        }
        if self.prng.percent(40) {
            self.rest[stream] = bytes.split_off(self.prng.index(bytes.len() + 1));
        }
        let Interpreter { device, store, .. } = &mut self.second;
        offer_all(device, store, stream, &bytes);
        if device.streams[stream].condition != Condition::Open {
            self.rest[stream].clear();
        }
        bytes
    }
}

/// Offers bytes to the second program until none are left.
fn offer_all(device: &mut Second, store: &mut [u8], stream: usize, mut bytes: &[u8]) {
    loop {
        let took = match device.offer(store, HELD as u64, stream as u64, bytes) {
            Offered::Held { took } | Offered::Taken { took, .. } => took,
            _ => return,
        };
        bytes = &bytes[took..];
        if bytes.is_empty() {
            return;
        }
    }
}
