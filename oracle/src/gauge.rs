//! The gauge: how busy a domain is, as a level that follows the samples and the peak that the level has had.

use std::fmt;

/// What a gauge keeps: nothing before the first sample.
#[derive(Clone, Copy, Debug, Default, PartialEq)]
pub struct Gauge {
    kept: Option<Kept>,
}

/// The level and its peak.
#[derive(Clone, Copy, Debug, PartialEq)]
struct Kept {
    level: f64,
    peak: f64,
}

/// What a gauge reads as.
#[derive(Clone, Copy, Debug, PartialEq)]
pub enum Reading {
    Quiet,
    Steady { level: f64 },
    Falling { level: f64, peak: f64 },
}

/// The part of the way to a sample that the level goes is one in so many.
const SHARES: f64 = 8.0;
/// A level under this is quiet.
const LEAST: f64 = 1.0;

impl Gauge {
    /// Takes a sample: the first sets level and peak, a later one moves the level towards it, each step rounded once.
    pub fn take(&mut self, sample: u32) {
        let sample = f64::from(sample);
        self.kept = Some(match self.kept {
            None => Kept {
                level: sample,
                peak: sample,
            },
            Some(Kept { level, peak }) => {
                let away = sample - level;
                let step = away / SHARES;
                let level = level + step;
                let peak = if level > peak { level } else { peak };
                Kept { level, peak }
            }
        });
    }

    /// Gives what it reads as.
    pub fn reading(&self) -> Reading {
        match self.kept {
            None => Reading::Quiet,
            Some(Kept { level, .. }) if level < LEAST => Reading::Quiet,
            Some(Kept { level, peak }) if level < peak / 2.0 => Reading::Falling { level, peak },
            Some(Kept { level, .. }) => Reading::Steady { level },
        }
    }

    /// Gives the level, where it has had a sample.
    pub fn level(&self) -> Option<f64> {
        self.kept.map(|kept| kept.level)
    }
}

impl fmt::Display for Reading {
    /// Writes its name and the bits of its floats in hex.
    fn fmt(&self, out: &mut fmt::Formatter) -> fmt::Result {
        match self {
            Reading::Quiet => write!(out, "quiet"),
            Reading::Steady { level } => write!(out, "steady {:016x}", level.to_bits()),
            Reading::Falling { level, peak } => {
                write!(
                    out,
                    "falling {:016x} {:016x}",
                    level.to_bits(),
                    peak.to_bits()
                )
            }
        }
    }
}

#[cfg(test)]
mod tests {
    use super::*;

    /// Gives the reading after some samples.
    fn after(samples: &[u32]) -> String {
        let mut gauge = Gauge::default();
        samples.iter().for_each(|&sample| gauge.take(sample));
        gauge.reading().to_string()
    }

    #[test]
    fn worked_cases() {
        for (samples, reading) in [
            (&[][..], "quiet"),
            (&[8], "steady 4020000000000000"),
            (&[8, 8, 8], "steady 4020000000000000"),
            // 8 + 8 / 8 = 9, and 9 + 7 / 8 = 9.875.
            (&[8, 16], "steady 4022000000000000"),
            (&[8, 16, 16], "steady 4023c00000000000"),
            (&[1], "steady 3ff0000000000000"),
            // 7 / 8; then 7 / 8 + (2 - 7 / 8) / 8 = 65 / 64.
            (&[1, 0], "quiet"),
            (&[1, 0, 2], "steady 3ff0400000000000"),
            (&[0], "quiet"),
            (&[0, 7], "quiet"),
            (&[0, 8], "steady 3ff0000000000000"),
            (&[u32::MAX], "steady 41efffffffe00000"),
            // 16 * (7 / 8)^5 = 16807 / 2048 is over 8; with one factor more, 117649 / 16384 is not.
            (&[16, 0, 0, 0, 0, 0], "steady 402069c000000000"),
            (
                &[16, 0, 0, 0, 0, 0, 0],
                "falling 401cb91000000000 4030000000000000",
            ),
        ] {
            assert_eq!(after(samples), reading, "{samples:?}");
        }
    }

    /// A level of half the peak is not under it: 32,768 * (7 / 8)^5 * 7 / 8 + 13,423 / 8 = 16,384.
    #[test]
    fn half_the_peak() {
        assert_eq!(
            after(&[32_768, 0, 0, 0, 0, 0, 13_423]),
            "steady 40d0000000000000"
        );
        let below = after(&[32_768, 0, 0, 0, 0, 0, 13_422]);
        assert_eq!(below, "falling 40cffff000000000 40e0000000000000");
    }

    /// Quiet is judged before falling.
    #[test]
    fn quiet_comes_first() {
        let mut gauge = Gauge::default();
        gauge.take(100);
        while gauge.level().is_some_and(|level| level >= 1.0) {
            assert_ne!(gauge.reading(), Reading::Quiet);
            gauge.take(0);
        }
        assert_eq!(gauge.reading(), Reading::Quiet);
    }

    /// The same sample again and again: the level comes to rest where the step is lost in rounding.
    #[test]
    fn settles() {
        for sample in [1, 3, 8, 1000, u32::MAX] {
            let mut gauge = Gauge::default();
            gauge.take(sample / 3 + 1);
            (0..500).for_each(|_| gauge.take(sample));
            let before = gauge;
            gauge.take(sample);
            assert_eq!(gauge, before);
            let away = gauge.level().unwrap() - f64::from(sample);
            assert!(away.abs() < 1e-14 * f64::from(sample), "{sample}");
        }
    }
}
