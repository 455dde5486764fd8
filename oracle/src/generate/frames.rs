//! Scripts of the stateless commands: frames written and read, whole and damaged, startups agreed on, and CRCs.

use std::io::{self, Write};

use super::malformed::{long_line, malform};
use super::pieces::crc_line;
use super::prng::Prng;
use super::startups::{startup, unstartup};
use super::startups2::{agree, odd_word, startup2, unstartup2};
use crate::crc::crc_field;
use crate::hex;
use crate::mpa::{fpdu_total, CRC_FIELD, LENGTH_FIELD, MAX_ULPDU};

/// Writes a script of `count` lines.
pub fn write_script(seed: u64, count: u64, mut out: impl Write) -> io::Result<()> {
    let mut prng = Prng::new(seed);
    for _ in 0..count {
        out.write_all(&line(&mut prng))?;
        out.write_all(b"\n")?;
    }
    out.flush()
}

/// Gives one line: most often a command, now and then one oddly written.
pub fn line(prng: &mut Prng) -> Vec<u8> {
    let short = prng.percent(12);
    let command = match prng.below(145) {
        0..=1 => format!("# {}", prng.draw()),
        2..=23 => fpdu(prng, short),
        24..=52 => unframe(prng, short),
        53..=66 => startup(prng, short),
        67..=85 => unstartup(prng, short),
        86..=99 => crc_line(prng, short),
        100..=113 => startup2(prng, short),
        114..=130 => unstartup2(prng, short),
        131..=142 => agree(prng),
        _ => odd_word(prng),
    };
    let command = command.into_bytes();
    match (short, prng.below(150)) {
        (true, 0) => long_line(prng, &command),
        (true, _) => malform(prng, &command),
        (false, _) => command,
    }
}

/// The limit that stood before, near which lengths are still tried.
const FORMER_LIMIT: u64 = 2048;

/// Gives a length of a ULPDU: mostly short, at times near the limit or far past it.
fn ulpdu_length(prng: &mut Prng, short: bool) -> usize {
    let length = match prng.below(100) {
        _ if short => prng.below(30),
        0..=78 => prng.below(41),
        79..=84 => near(prng, MAX_ULPDU as u64),
        85 | 86 => near(prng, FORMER_LIMIT),
        87..=97 => prng.below(300),
        98 => prng.below(2500),
        _ => prng.below(9001),
    };
    length as usize
}

/// Gives a number that is at most two away from a limit.
fn near(prng: &mut Prng, limit: u64) -> u64 {
    prng.between(limit - 2, limit + 2)
}

/// Gives a slice's length near what is needed.
pub(super) fn room(prng: &mut Prng, needed: usize) -> u64 {
    let needed = needed as u64;
    match prng.below(12) {
        0..=3 => needed,
        4 | 5 => needed.saturating_sub(1),
        6 => 0,
        7 => needed + 1,
        8 => needed + prng.below(500),
        9 => prng.below(needed + 1),
        10 => prng.pick(&[65_535, 65_536, 65_537, 1 << 32]),
        _ => u64::MAX,
    }
}

/// Writes bytes in hex of either case.
pub(super) fn hex_word(prng: &mut Prng, bytes: &[u8]) -> String {
    let word = hex::encode(bytes);
    if prng.percent(10) {
        word.to_ascii_uppercase()
    } else {
        word
    }
}

/// Gives `on` or `off`.
fn on_off(prng: &mut Prng) -> &'static str {
    prng.pick(&["on", "on", "off"])
}

/// Gives a line that writes an FPDU.
fn fpdu(prng: &mut Prng, short: bool) -> String {
    let length = ulpdu_length(prng, short);
    let ulpdu = prng.bytes(length);
    let room = room(prng, fpdu_total(length));
    format!("fpdu {} {room}", hex_word(prng, &ulpdu))
}

/// Gives a line that reads an FPDU, good or damaged.
fn unframe(prng: &mut Prng, short: bool) -> String {
    let length = ulpdu_length(prng, short);
    let mut frame = good_fpdu(prng, length, false);
    match prng.below(20) {
        0..=5 => (),
        6 | 7 => flip_bit(prng, &mut frame),
        8 => drop(frame.pop()),
        9 => frame.truncate(prng.index(frame.len())),
        10 => frame.truncate(prng.index(3)),
        11 | 12 => append(prng, &mut frame),
        13 | 14 => frame = good_fpdu(prng, length, true),
        15 | 16 => spoil_crc(prng, &mut frame),
        17 => frame[..LENGTH_FIELD].copy_from_slice(&prng.bytes(LENGTH_FIELD)),
        18 => {
            let former = near(prng, FORMER_LIMIT);
            let limit = near(prng, MAX_ULPDU as u64);
            let other = prng.pick(&[former, limit, limit, 0x8000, 0xFFFF]) as u16;
            frame[..LENGTH_FIELD].copy_from_slice(&other.to_be_bytes());
            if prng.percent(30) {
                frame.truncate(LENGTH_FIELD);
            }
        }
        _ => frame.clear(),
    }
    format!("unframe {} {}", on_off(prng), hex_word(prng, &frame))
}

/// Gives an FPDU with the right CRC, its pad not zero where asked.
fn good_fpdu(prng: &mut Prng, length: usize, odd_pad: bool) -> Vec<u8> {
    let field = length.min(usize::from(u16::MAX)) as u16;
    let mut frame = field.to_be_bytes().to_vec();
    frame.extend(prng.bytes(length));
    let pad = fpdu_total(length) - CRC_FIELD - frame.len();
    if odd_pad {
        frame.extend(prng.bytes(pad));
    } else {
        frame.resize(frame.len() + pad, 0);
    }
    frame.extend(crc_field(&frame));
    debug_assert!(length > MAX_ULPDU || frame.len() == fpdu_total(length));
    frame
}

/// Flips one bit.
pub(super) fn flip_bit(prng: &mut Prng, bytes: &mut [u8]) {
    let at = prng.index(bytes.len());
    bytes[at] ^= 1 << prng.below(8);
}

/// Puts some bytes behind.
pub(super) fn append(prng: &mut Prng, bytes: &mut Vec<u8>) {
    let count = prng.index(12) + 1;
    bytes.extend(prng.bytes(count));
}

/// Writes another CRC: any, all zero, or the right one in the other byte order.
fn spoil_crc(prng: &mut Prng, frame: &mut [u8]) {
    let at = frame.len() - CRC_FIELD;
    match prng.below(3) {
        0 => frame[at..].copy_from_slice(&prng.bytes(CRC_FIELD)),
        1 => frame[at..].fill(0),
        _ => frame[at..].reverse(),
    }
}
