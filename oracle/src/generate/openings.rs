//! Openings of the box: most of them good, some refused.

use super::prng::Prng;
use crate::state::{DOMAINS, MAX_STORE};

/// Gives a line that opens the box, three times in four with the usual length where there is one.
pub fn opening(prng: &mut Prng, usual: Option<u64>) -> String {
    let length = match usual {
        Some(length) if prng.percent(75) => length,
        _ => any_length(prng),
    };
    let mut ends = if prng.percent(50) {
        quarters(length)
    } else {
        scattered(prng, length)
    };
    if prng.percent(30) {
        break_rule(prng, length, &mut ends);
    }
    line(length, &ends)
}

/// Gives a line that opens the box well, with at least 64 bytes for one domain.
pub fn roomy_opening(prng: &mut Prng, domain: usize) -> String {
    let length = prng.between(512, 8192);
    loop {
        let ends = match prng.percent(50) {
            true => quarters(length),
            false => scattered(prng, length),
        };
        if ends[2 * domain + 1] - ends[2 * domain] >= 64 {
            return line(length, &ends);
        }
    }
}

/// Writes the line of an opening.
fn line(length: u64, ends: &[u64]) -> String {
    let words: Vec<String> = ends.iter().map(u64::to_string).collect();
    format!("open {length} {}", words.join(" "))
}

/// Gives a length, now and then one that is refused.
fn any_length(prng: &mut Prng) -> u64 {
    let any = prng.between(64, 20_000);
    match prng.below(16) {
        0 | 1 => prng.pick(&[0, MAX_STORE + 1, u64::MAX]),
        2 => prng.pick(&[1, 1_048_577, MAX_STORE]),
        3 => 1_048_576,
        4..=7 => 4096,
        8..=10 => 16_384,
        11..=13 => 65_536,
        _ => any,
    }
}

/// Gives four parts of a quarter each.
fn quarters(length: u64) -> Vec<u64> {
    let quarter = length / DOMAINS as u64;
    (0..DOMAINS as u64)
        .flat_map(|domain| [domain * quarter, (domain + 1) * quarter])
        .collect()
}

/// Gives four parts with gaps between, at times an empty one.
fn scattered(prng: &mut Prng, length: u64) -> Vec<u64> {
    let mut ends: Vec<u64> = (0..2 * DOMAINS)
        .map(|_| prng.below(length.saturating_add(1)))
        .collect();
    ends.sort_unstable();
    if prng.percent(25) {
        let part = 2 * prng.index(DOMAINS);
        ends[part] = ends[part + 1];
    }
    ends
}

/// Breaks a rule of the parts, or nearly so.
fn break_rule(prng: &mut Prng, length: u64, ends: &mut [u64]) {
    let at = prng.index(ends.len());
    match prng.below(5) {
        0 => ends[at] = ends[at].wrapping_sub(1),
        1 => ends[at] = ends[at].wrapping_add(1),
        2 => ends[7] = length.wrapping_add(1),
        3 => ends.swap(at, 7 - at),
        _ => ends[at] = prng.draw(),
    }
}
