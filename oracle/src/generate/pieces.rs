//! CRCs of bytes in pieces: carried on and joined, with pieces cut anywhere.

use super::frames::hex_word;
use super::prng::Prng;
use crate::crc::crc32c;

/// Gives a line that asks for a CRC, good or damaged.
pub(super) fn crc_line(prng: &mut Prng, short: bool) -> String {
    let length = match prng.below(10) {
        _ if short => prng.below(9),
        0..=7 => prng.below(60),
        8 => prng.below(5),
        _ => prng.below(2000),
    };
    let bytes = prng.bytes(length as usize);
    let (first, second) = bytes.split_at(prng.index(bytes.len() + 1));
    match prng.below(10) {
        0..=2 => format!("crc {}", hex_word(prng, &bytes)),
        3..=5 => {
            let before = crc_word(prng, crc32c(first));
            format!("crc {before} {}", hex_word(prng, second))
        }
        6..=8 => {
            let (one, other) = (crc32c(first), crc32c(second));
            join(prng, one, other, second.len() as u64)
        }
        _ => {
            let (one, other) = (any_crc(prng), any_crc(prng));
            let length = joined_length(prng);
            join(prng, one, other, length)
        }
    }
}

/// Gives a line that joins two CRCs.
fn join(prng: &mut Prng, one: u32, other: u32, length: u64) -> String {
    let (one, other) = (crc_word(prng, one), crc_word(prng, other));
    format!("join {one} {other} {length}")
}

/// Gives any CRC, now and then one at either end.
fn any_crc(prng: &mut Prng) -> u32 {
    match prng.below(8) {
        0 => prng.pick(&[0, 1, u32::MAX - 1, u32::MAX]),
        _ => prng.draw() as u32,
    }
}

/// Gives a second piece's length: of any size, and now and then past the limit.
fn joined_length(prng: &mut Prng) -> u64 {
    let most = u64::from(u32::MAX);
    match prng.below(12) {
        0 | 1 => 0,
        2 | 3 => 1 << prng.below(32),
        4 | 5 => most - prng.below(3),
        6 => most + 1,
        7 => prng.pick(&[most + 2, 2 * most, u64::MAX]),
        _ => prng.draw() >> prng.between(32, 63),
    }
}

/// Writes a CRC in digits of either case, and now and then with a digit too few, too many or none at all.
fn crc_word(prng: &mut Prng, crc: u32) -> String {
    let word = format!("{crc:08x}");
    match prng.below(30) {
        0..=3 => word.to_ascii_uppercase(),
        4..=6 => word
            .chars()
            .map(|digit| match prng.percent(50) {
                true => digit.to_ascii_uppercase(),
                false => digit,
            })
            .collect(),
        7 => String::from(&word[1..]),
        8 => format!("0{word}"),
        9 => {
            let other = prng.pick(&["-", "--------", "0x", "+", "g0000000", "00"]);
            format!("{other}{}", &word[..prng.pick(&[0, 6, 7, 8])])
        }
        _ => word,
    }
}
