//! One domain's calls of a night, put among the calls that the others make on this night or that.

use std::io::{self, Write};

use super::nights::Night;
use super::openings::roomy_opening;
use super::prng::Prng;
use crate::hex;
use crate::state::{DOMAINS, STREAMS_PER_DOMAIN};

/// The comment before each of the domain's own calls.
pub const OWN: &str = "# own";

/// The calls that name a stream and may change it.
const CHANGES_STREAM: [&[u8]; 6] = [b"stream", b"close", b"post", b"take", b"receive", b"offer"];

/// The opening and the calls of one domain, which turn on nothing that another does.
struct Own {
    opening: String,
    domain: usize,
    calls: Vec<Vec<u8>>,
}

/// Writes the domain's calls of the night `seed`, marked, among the others' of the night `others`, which is empty where 0.
pub fn write_script(
    seed: u64,
    domain: usize,
    count: u64,
    others: u64,
    mut out: impl Write,
) -> io::Result<()> {
    let own = own_calls(seed, domain, count);
    for (mine, line) in mix(&own, seed, others) {
        if mine {
            writeln!(out, "{OWN}")?;
        }
        out.write_all(&line)?;
        out.write_all(b"\n")?;
    }
    out.flush()
}

/// Makes the opening and `count` calls of a domain that is alone, each followed by a look at its part, an offer also by the
/// question what its stream holds, a tick by the reading, and a call on a stream by its state.
fn own_calls(seed: u64, domain: usize, count: u64) -> Own {
    let opening = roomy_opening(&mut Prng::new(seed), domain);
    let mut night = Night::new(seed, vec![domain], count + 1);
    night.say(&opening);
    while night.left > 0 {
        night.call();
    }
    let part = night.interpreter.device.parts[domain];
    let show = format!("bytes {} {}", part.start, part.end - part.start).into_bytes();
    let lines = night.lines.into_iter().skip(1).chain(last_calls(domain));
    let mut calls = Vec::new();
    for line in lines {
        let questions = [held_after(&line), reading_after(&line), state_after(&line)];
        calls.push(line);
        calls.extend(questions.into_iter().flatten());
        calls.push(show.clone());
    }
    Own {
        opening,
        domain,
        calls,
    }
}

/// Asks after an offer how many bytes its stream holds.
fn held_after(line: &[u8]) -> Option<Vec<u8>> {
    let offered = line.strip_prefix(b"offer ")?;
    let stream = offered.split(|&byte| byte == b' ').next()?;
    Some([b"held ", stream].concat())
}

/// Asks after a tick what the domain's gauge reads as.
fn reading_after(line: &[u8]) -> Option<Vec<u8>> {
    let domain = line.strip_prefix(b"tick ")?;
    Some([b"reading ", domain].concat())
}

/// Asks after a call that may change a stream what its state is.
fn state_after(line: &[u8]) -> Option<Vec<u8>> {
    let mut words = line.split(|&byte| byte == b' ');
    let called = CHANGES_STREAM.contains(&words.next()?);
    let stream = words.next().filter(|_| called)?;
    Some([b"state ", stream].concat())
}

/// Gives the calls that bring to light what a domain's state still holds.
fn last_calls(domain: usize) -> Vec<Vec<u8>> {
    let first = domain * STREAMS_PER_DOMAIN;
    let mut lines: Vec<String> = ["live", "free", "reading", "tick", "reading"]
        .map(|word| format!("{word} {domain}"))
        .to_vec();
    for stream in first..first + STREAMS_PER_DOMAIN {
        let words = ["held", "state", "take", "close"];
        lines.extend(words.map(|word| format!("{word} {stream}")));
    }
    lines.into_iter().map(String::into_bytes).collect()
}

/// Puts the domain's calls among the others' of a night, and says of each line whether it is the domain's.
fn mix(own: &Own, seed: u64, others: u64) -> Vec<(bool, Vec<u8>)> {
    let domains = (0..DOMAINS).filter(|&domain| domain != own.domain);
    let mut night = Night::new(
        seed ^ others.wrapping_mul(0x5851_F42D_4C95_7F2D),
        domains.collect(),
        u64::MAX,
    );
    night.say(&own.opening);
    if others > 0 {
        night.fill_parts();
    }
    let mut script = Vec::new();
    for call in &own.calls {
        let between = if others > 0 { night.prng.below(4) } else { 0 };
        (0..between).for_each(|_| night.call());
        script.extend(night.lines.drain(..).map(|line| (false, line)));
        night.say(call);
        script.extend(night.lines.drain(..).map(|line| (true, line)));
    }
    script
}

impl Night {
    /// Fills the parts of its domains with bytes of this night.
    fn fill_parts(&mut self) {
        for domain in self.domains.clone() {
            let part = self.interpreter.device.parts[domain];
            let bytes = self.prng.bytes((part.end - part.start) as usize);
            self.say(format!("fill {} {}", part.start, hex::encode(&bytes)));
        }
    }
}
