//! Rounds of timing: the contenders take turns, so that what slows the machine down slows all of them.

use std::time::{Duration, Instant};

/// How often each contender is timed.
pub const ROUNDS: usize = 51;
/// How long one timing of a contender lasts at least: short, so that other programs stop few of them.
pub const ROUND: Duration = Duration::from_millis(1);

/// Work to be timed: does it the given number of times over and gives the time that it took.
pub type Work<'a> = Box<dyn FnMut(u64) -> Duration + 'a>;

/// Times as many repetitions as asked for in one piece.
pub fn repeated<'a>(mut work: impl FnMut() + 'a) -> Work<'a> {
    Box::new(move |repetitions| {
        let start = Instant::now();
        for _ in 0..repetitions {
            work();
        }
        start.elapsed()
    })
}

/// The times of a contender in nanoseconds an operation, one for each round.
#[derive(Clone, Debug)]
pub struct Times(Vec<f64>);

impl Times {
    /// Gives the median.
    pub fn median(&self) -> f64 {
        quantile(&self.0, 2)
    }

    /// Gives the lower and the upper quartile, between which half of the rounds lie.
    pub fn quartiles(&self) -> (f64, f64) {
        (quantile(&self.0, 1), quantile(&self.0, 3))
    }

    /// Gives the median of the rounds' ratios to another contender of the same rounds.
    pub fn ratio(&self, other: &Times) -> f64 {
        let pairs = self.0.iter().zip(&other.0);
        let ratios: Vec<f64> = pairs.map(|(ours, theirs)| ours / theirs).collect();
        quantile(&ratios, 2)
    }
}

/// Gives the value that so many quarters of the values do not exceed.
fn quantile(values: &[f64], quarters: usize) -> f64 {
    let mut sorted = values.to_vec();
    sorted.sort_by(f64::total_cmp);
    sorted[(sorted.len() - 1) * quarters / 4]
}

/// Times the contenders in turn, round by round; one repetition of each is so many operations.
pub fn measure(operations: u64, contenders: &mut [Work]) -> Vec<Times> {
    let repetitions: Vec<u64> = contenders.iter_mut().map(calibrate).collect();
    let mut times = vec![Times(Vec::with_capacity(ROUNDS)); contenders.len()];
    for _ in 0..ROUNDS {
        for (at, contender) in contenders.iter_mut().enumerate() {
            let took = contender(repetitions[at]);
            let count = (repetitions[at] * operations) as f64;
            times[at].0.push(took.as_nanos() as f64 / count);
        }
    }
    times
}

/// Gives the number of repetitions that last a round, having warmed up with fewer.
fn calibrate(contender: &mut Work) -> u64 {
    let mut repetitions = 1;
    while contender(repetitions) < ROUND {
        repetitions *= 2;
    }
    repetitions
}

/// Gives the time of two readings of the clock, in nanoseconds.
pub fn clock_cost() -> f64 {
    let read = || {
        std::hint::black_box(Instant::now().elapsed());
    };
    measure(1, &mut [repeated(read)])[0].median()
}
