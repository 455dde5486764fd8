//! Scripts of whole nights: a device runs alongside, so that most calls and frames are good.

use std::io::{self, Write};

use super::openings::opening;
use super::prng::Prng;
use super::segments::Kind;
use crate::script::Interpreter;
use crate::state::{stream_domain, Condition};
use crate::state::{DOMAINS, STREAMS, STREAMS_PER_DOMAIN};

/// How many FPDUs in a hundred a night spoils where nothing else is asked for.
pub const FAULTY: u64 = 16;

/// Every domain.
pub(super) const EVERY: [usize; DOMAINS] = [0, 1, 2, 3];

/// Writes a script of `count` lines, the last of which shows the whole store.
pub fn write_script(seed: u64, count: u64, out: impl Write) -> io::Result<()> {
    write_night(Night::new(seed, EVERY.to_vec(), count), out)
}

/// Writes a script for a store of another size, most of whose openings are over all of it.
pub fn write_script_over(store: usize, seed: u64, count: u64, out: impl Write) -> io::Result<()> {
    write_spoilt_script(store, FAULTY, seed, count, out)
}

/// Writes such a script in which so many in a hundred of the FPDUs that come alone have a fault.
pub fn write_spoilt_script(
    store: usize,
    faulty: u64,
    seed: u64,
    count: u64,
    out: impl Write,
) -> io::Result<()> {
    let mut night = Night::new(seed, EVERY.to_vec(), count);
    night.interpreter = Interpreter::with_store(store);
    night.usual = Some(store as u64);
    night.faulty = faulty;
    write_night(night, out)
}

/// Writes the lines of a night, the last of which shows the whole store.
fn write_night(night: Night, out: impl Write) -> io::Result<()> {
    write_steps(night, Night::step, out)
}

/// Writes the lines of a night that goes on by such steps, the last of which shows the whole store.
pub(super) fn write_steps(
    mut night: Night,
    step: fn(&mut Night),
    mut out: impl Write,
) -> io::Result<()> {
    let shown = night.left > 0;
    night.left -= u64::from(shown);
    while night.left > 0 {
        step(&mut night);
        for line in night.lines.drain(..) {
            out.write_all(&line)?;
            out.write_all(b"\n")?;
        }
    }
    if shown {
        writeln!(out, "bytes 0 {}", night.store())?;
    }
    out.flush()
}

/// A night under way: what it draws from, and apart from that for its questions, the domains whose calls it makes, the length
/// that most openings have where there is one, how many FPDUs in a hundred it spoils, what is to follow the bytes that each
/// stream holds, its lines so far and the number still to come.
pub(super) struct Night {
    pub(super) prng: Prng,
    pub(super) asking: Prng,
    pub(super) interpreter: Interpreter,
    pub(super) domains: Vec<usize>,
    usual: Option<u64>,
    pub(super) faulty: u64,
    pub(super) rest: [Vec<u8>; STREAMS],
    pub(super) lines: Vec<Vec<u8>>,
    pub(super) left: u64,
}

impl Night {
    /// Starts a night of `left` lines with nothing opened.
    pub(super) fn new(seed: u64, domains: Vec<usize>, left: u64) -> Self {
        Night {
            prng: Prng::new(seed),
            asking: Prng::new(!seed),
            interpreter: Interpreter::default(),
            domains,
            usual: None,
            faulty: FAULTY,
            rest: std::array::from_fn(|_| Vec::new()),
            lines: Vec::new(),
            left,
        }
    }

    /// Gives the size of the program's store.
    pub(super) fn store(&self) -> u64 {
        self.interpreter.store.len() as u64
    }

    /// Says whether it makes the calls of every domain.
    pub(super) fn is_whole(&self) -> bool {
        self.domains.len() == DOMAINS
    }

    /// Adds a line and gives its answer.
    pub(super) fn say(&mut self, line: impl AsRef<[u8]>) -> String {
        if self.left == 0 {
            return String::new();
        }
        self.left -= 1;
        let line = line.as_ref();
        self.lines.push(line.to_vec());
        self.interpreter.run_line(line).unwrap_or_default()
    }

    /// Goes one step on: an opening, soon where the store cannot be lent, or a call.
    fn step(&mut self) {
        let length = self.interpreter.device.length;
        let usable = (1..=self.store()).contains(&length);
        if self.prng.below(1000) < if usable { 2 } else { 300 } {
            let line = opening(&mut self.prng, self.usual);
            self.say(line);
        } else {
            self.call();
        }
    }

    /// Makes a call that the condition of one of its domains' streams suggests, at times after the question what it is.
    pub(super) fn call(&mut self) {
        let domain = self.prng.pick(&self.domains);
        let stream = domain * STREAMS_PER_DOMAIN + self.prng.index(STREAMS_PER_DOMAIN);
        self.ask_state(stream);
        match self.interpreter.device.streams[stream].condition {
            Condition::Closed if self.prng.percent(90) => self.open_stream(stream),
            Condition::Faulted(_) | Condition::Terminated if self.prng.percent(80) => {
                self.say(format!("close {stream}"));
                if self.prng.percent(85) {
                    self.open_stream(stream);
                }
            }
            _ if self.holds(stream) && self.prng.percent(60) => self.go_on(stream),
            _ => self.act(stream),
        }
    }

    /// Makes one of all the calls.
    fn act(&mut self, stream: usize) {
        let domain = stream_domain(stream);
        match self.prng.below(1000) {
            0..=299 => self.receive(stream),
            300..=559 => self.offer(stream),
            560..=619 => self.register(domain, None),
            620..=659 => self.drop_window(domain),
            660..=759 => self.post(stream),
            760..=809 => self.take(stream),
            810..=839 => self.watch(domain),
            840..=854 => self.numbered("live", domain, DOMAINS),
            855..=869 => self.numbered("free", domain, DOMAINS),
            870..=879 => self.numbered("held", stream, STREAMS),
            880..=894 if self.is_whole() => self.show(),
            880..=894 => self.probe(stream),
            895..=899 => self.longest(stream),
            900..=904 => self.fill(),
            905..=914 => self.probe(stream),
            915..=924 => self.numbered("close", stream, STREAMS),
            925..=934 => self.open_stream(stream),
            935..=939 => self.batch(stream, 0),
            940..=944 => self.offer_batch(stream, 0),
            945..=954 => self.batch(stream, 12),
            955..=964 => self.offer_batch(stream, 12),
            965..=969 => (0..10).for_each(|_| self.post(stream)),
            970..=974 => (0..9).for_each(|_| self.receive_good(stream, Kind::Read)),
            975..=979 => (0..9).for_each(|_| self.numbered("take", stream, STREAMS)),
            980..=984 => (0..16).for_each(|_| self.register(domain, None)),
            985..=989 => (0..8).for_each(|_| self.drop_window(domain)),
            990..=994 if self.is_whole() => self.odd_line(stream),
            990..=994 => self.probe(stream),
            _ => self.longest(stream),
        }
    }
}
