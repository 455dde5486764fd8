//! How busy each domain is.

use std::time::{Duration, Instant};

use crate::config::{DOMAINS, STREAMS};
use crate::engine::Engine;
use crate::log::counted;

/// How many seconds a rate is taken over.
const SECONDS: usize = 5;

/// Each domain's bytes received, second by second.
pub struct Rates {
    /// The counts of the last seconds with their times, the oldest first.
    marks: Vec<(Instant, [u64; DOMAINS])>,
}

impl Rates {
    /// Starts with nothing received.
    pub fn new() -> Self {
        Rates {
            marks: vec![(Instant::now(), [0; DOMAINS])],
        }
    }

    /// Says whether a second has passed since the last mark.
    pub fn is_due(&self) -> bool {
        self.marks
            .last()
            .is_none_or(|(at, _)| at.elapsed() >= Duration::from_secs(1))
    }

    /// Makes a mark, and forgets the oldest.
    pub fn take(&mut self, engine: &Engine) {
        if self.marks.len() > SECONDS {
            self.marks.remove(0);
        }
        let counts = engine.counts.map(|counts| counts.bytes);
        self.marks.push((Instant::now(), counts));
    }

    /// Gives a domain's bytes a second since the oldest mark.
    fn rate(&self, domain: usize, bytes: u64) -> f64 {
        self.marks.first().map_or(0.0, |(at, counts)| {
            let seconds = at.elapsed().as_secs_f64().max(0.001);
            (bytes - counts[domain]) as f64 / seconds
        })
    }

    /// Gives the line on a domain.
    pub fn status(&self, engine: &Engine, domain: usize, starting: usize) -> String {
        let counts = engine.counts[domain];
        format!(
            "domain {domain}: {} of {STREAMS} streams open, {starting} starting; {} in {}, {}; {}; {}, {} declined; \
             {:.0} bytes a second; placed: {}",
            engine.open_streams(domain),
            counted(counts.bytes, "byte"),
            counted(counts.fpdus, "FPDU"),
            counted(counts.messages, "message"),
            counted(engine.live_windows(domain).into(), "live window"),
            counted(counts.refusals, "refusal"),
            counts.declined,
            self.rate(domain, counts.bytes),
            engine.gauge(domain),
        )
    }
}
