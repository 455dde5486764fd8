//! Files of samples for a gauge: runs in which the level settles, rises, falls or dies away, and lines that are no sample.

use std::io::{self, Write};

use super::prng::Prng;
use crate::gauge::Gauge;

/// The longest run of digits in most files and, now and then, in one line of all.
const DIGITS: usize = 60;
const MANY_DIGITS: usize = 70_000;

/// Writes a file of `count` lines, the last of which has its newline or lacks it.
pub fn write_file(seed: u64, count: u64, mut out: impl Write) -> io::Result<()> {
    let mut prng = Prng::new(seed);
    let most = match prng.below(3) {
        0 => u32::MAX,
        1 => (prng.draw() >> prng.between(32, 60)) as u32,
        _ => prng.between(1, 40) as u32,
    };
    let mut file = File {
        prng,
        most,
        gauge: Gauge::default(),
        lines: Vec::new(),
    };
    let count = count as usize;
    if file.prng.percent(15) {
        file.halve();
    }
    while file.lines.len() < count {
        file.run();
    }
    if count > 0 && file.prng.percent(10) {
        let at = file.prng.index(count);
        file.lines[at] = file.long_line();
    }
    for line in file.lines.iter().take(count.saturating_sub(1)) {
        out.write_all(line)?;
        out.write_all(b"\n")?;
    }
    if let Some(last) = file.lines.get(count.wrapping_sub(1)) {
        out.write_all(last)?;
        if last.is_empty() || file.prng.percent(50) {
            out.write_all(b"\n")?;
        }
    }
    out.flush()
}

/// A file in the making, with the highest sample that it mostly has, so that the peak is not always far above, and a gauge
/// that takes its samples.
struct File {
    prng: Prng,
    most: u32,
    gauge: Gauge,
    lines: Vec<Vec<u8>>,
}

impl File {
    /// Adds a run of lines.
    fn run(&mut self) {
        let (most, prng) = (self.most, &mut self.prng);
        match prng.below(20) {
            0..=2 => {
                let (sample, times) = (any_sample(prng, most), times(prng, 500));
                self.again(sample, times);
            }
            3 => {
                let times = times(prng, 400);
                self.again(0, times);
            }
            4 => {
                let times = times(prng, 300);
                self.again(most, times);
            }
            5 | 6 => self.fall(),
            7..=9 => self.each(12, |file| file.prng.below(4) as u32),
            10..=12 => self.each(20, File::near_level),
            13..=15 => self.each(12, |file| any_sample(&mut file.prng, file.most)),
            16 if prng.percent(10) => self.each(12, |file| file.prng.draw() as u32),
            _ => self.add_bad(),
        }
    }

    /// Adds a sample, now and then with zeros before it, which do not count.
    fn add(&mut self, sample: u32) {
        self.gauge.take(sample);
        let zeros = match self.prng.below(40) {
            0 => self.prng.index(4),
            1 => self.prng.index(DIGITS),
            _ => 0,
        };
        let line = format!("{}{sample}", "0".repeat(zeros));
        self.lines.push(line.into_bytes());
    }

    /// Adds a line that is no sample and changes nothing, or one that looks so.
    fn add_bad(&mut self) {
        let line = bad_line(&mut self.prng, self.most);
        self.lines.push(line);
    }

    /// Adds the same sample that many times, and seldom a bad line between.
    fn again(&mut self, sample: u32, times: u64) {
        for _ in 0..times {
            self.add(sample);
            if self.prng.below(50) == 0 {
                self.add_bad();
            }
        }
    }

    /// Adds some samples, each chosen anew.
    fn each(&mut self, most: u64, choose: fn(&mut File) -> u32) {
        for _ in 0..self.prng.between(1, most) {
            let sample = choose(self);
            self.add(sample);
        }
    }

    /// Picks a sample at the level, next to it, or on its way to 0 or upwards.
    fn near_level(&mut self) -> u32 {
        let around = self.gauge.level().unwrap_or(1.0) as u32;
        match self.prng.below(6) {
            0 | 1 => around,
            2 => around.saturating_add(1),
            3 => around.saturating_sub(1),
            4 => self.prng.below(u64::from(around) + 2) as u32,
            _ => around.saturating_mul(2).min(self.most),
        }
    }

    /// Adds a high sample, and low ones until the level is well under half of it.
    fn fall(&mut self) {
        let high = any_sample(&mut self.prng, self.most);
        let (rise, low) = (
            self.prng.between(1, 30),
            self.prng.below(u64::from(high) / 3 + 1),
        );
        self.again(high, rise);
        let times = self.prng.between(4, 40);
        self.again(low as u32, times);
    }

    /// Adds first samples, all in one scale, that bring the level to just half the peak.
    fn halve(&mut self) {
        let samples = self
            .prng
            .pick(&[&[25, 1, 6, 4, 2, 0, 2][..], &[13, 5, 4, 3, 2, 1, 0, 3]]);
        let scale = 1 + any_sample(&mut self.prng, u32::MAX / 25 - 1);
        samples.iter().for_each(|sample| self.add(sample * scale));
    }

    /// Gives a line that is longer than a reader's buffer may be: a sample behind zeros, or digits or letters past any number.
    fn long_line(&mut self) -> Vec<u8> {
        let length = MANY_DIGITS + self.prng.index(9);
        let digit = self.prng.pick(b"0001279x");
        let mut line = vec![digit; length];
        line.push(self.prng.pick(b"0123456789 "));
        line
    }
}

/// Picks how often a sample comes again: often a few times, at times up to `most`.
fn times(prng: &mut Prng, most: u64) -> u64 {
    match prng.percent(40) {
        true => prng.between(most / 2, most),
        false => prng.between(1, 12),
    }
}

/// Picks a sample of any size up to `most`, now and then one at either end or of one bit.
fn any_sample(prng: &mut Prng, most: u32) -> u32 {
    let sample = match prng.below(8) {
        0 => prng.pick(&[0, 1, 2, 7, 8, 9, most - most.min(1), most]),
        1 => 1 << prng.below(32),
        _ => (prng.draw() >> prng.between(32, 63)) as u32,
    };
    sample.min(most)
}

/// Gives a line that is no sample, or nearly none.
fn bad_line(prng: &mut Prng, most: u32) -> Vec<u8> {
    let good = any_sample(prng, most).to_string().into_bytes();
    match prng.below(6) {
        0 => prng.pick(&ODD_LINES).to_vec(),
        1 => {
            let (over, top) = ((1u64 << 32) + prng.below(20), u64::MAX - prng.below(9));
            let number = prng.pick(&[over, over << 10, top]);
            number.to_string().into_bytes()
        }
        2 => {
            // Past 2^64, where the low bits are a small number.
            let wide = (prng.between(1, 9) as u128) << prng.pick(&[64, 96, 100]);
            (wide + u128::from(prng.below(99))).to_string().into_bytes()
        }
        3 => {
            let length = prng.between(10, DIGITS as u64) as usize;
            (0..length).map(|_| b'0' + prng.below(10) as u8).collect()
        }
        4 => {
            let (edge, before) = (prng.pick(b" +-.,\r\t\0x"), prng.percent(50));
            match before {
                true => [&[edge], &good[..]].concat(),
                false => [&good[..], &[edge]].concat(),
            }
        }
        _ => {
            let mut line = good;
            let high = 0x80 | prng.draw() as u8;
            let byte = prng.pick(&[high, high, 0, b'/', b':', b'e', b'_', b'\r', 0x7F]);
            let at = prng.index(line.len() + 1);
            match at < line.len() && prng.percent(50) {
                true => line[at] = byte,
                false => line.insert(at, byte),
            }
            line
        }
    }
}

/// Lines at the ends of what is a sample: most are none.
const ODD_LINES: [&[u8]; 24] = [
    b"",
    b"",
    b" ",
    b"   ",
    b"\r",
    b"\t",
    b"\0",
    b"-",
    b"+",
    b"-0",
    b"+1",
    b"0x10",
    b"1e3",
    b"1.0",
    b"1 2",
    b"#",
    b"bad",
    b"quiet",
    b"4294967295",
    b"00000000004294967295",
    b"00000000004294967296",
    b"4294967296",
    b"\xD9\xA1",
    b"\xFF",
];
