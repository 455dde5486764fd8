//! Startup frames of revision 2 written and read, whole and damaged, and what a responder agrees to.

use super::frames::{hex_word, room};
use super::prng::Prng;
use super::startups::{damage_startup, role_word};
use crate::startup::{Role, HEADER, MAX_PRIVATE_DATA};
use crate::startup2::{ESTABLISHMENT, FLAG_ENHANCED, MAX_DEPTH, MAX_KINDS};

/// Depths that 14 bits do not hold; the low bits of some are a small number.
const TOO_DEEP: [u64; 9] = [
    0x4000,
    0x4001,
    0x7FFF,
    0x8001,
    0xFFFF,
    0x1_0001,
    1 << 32,
    1 << 63,
    u64::MAX,
];

/// Sums that name no kinds.
const NO_KINDS: [u64; 7] = [8, 8, 9, 12, 256, 1 << 32, u64::MAX];

/// Gives a length of private data, the four bytes counted: mostly short, often at one of its limits.
fn data_length(prng: &mut Prng, short: bool) -> usize {
    let limit = MAX_PRIVATE_DATA as u64;
    let length = match prng.below(100) {
        0..=44 => prng.below(7),
        _ if short => prng.below(12),
        45..=64 => prng.below(24),
        65..=74 => prng.between(limit - 5, limit - 2),
        75..=94 => prng.between(limit - 1, limit + 1),
        95..=97 => prng.between(limit + 1, limit + 6),
        _ => prng.below(1000),
    };
    length as usize
}

/// Gives an IRD or an ORD, at times one that its field cannot hold.
fn depth(prng: &mut Prng) -> u64 {
    match prng.below(40) {
        0 => prng.pick(&TOO_DEEP),
        1..=20 => prng.below(6),
        21..=26 => MAX_DEPTH,
        27 | 28 => MAX_DEPTH - 1,
        29..=32 => prng.pick(&[0, 1, 127, 128, 255, 256, 0x1FFF, 0x2000]),
        _ => prng.below(MAX_DEPTH + 1),
    }
}

/// Gives a depth at or next to another, or one of its own.
fn depth_near(prng: &mut Prng, other: u64) -> u64 {
    match prng.below(12) {
        0..=2 => other,
        3 | 4 => other.saturating_add(1),
        5 | 6 => other.saturating_sub(1),
        7 => MAX_DEPTH,
        _ => depth(prng),
    }
}

/// Gives a sum of kinds, at times one that names none.
fn kinds(prng: &mut Prng) -> u64 {
    match prng.below(40) {
        0 => prng.pick(&NO_KINDS),
        1..=6 => MAX_KINDS,
        _ => prng.below(MAX_KINDS + 1),
    }
}

/// Gives a line that writes a startup frame of revision 2, with S or without.
pub(super) fn startup2(prng: &mut Prng, short: bool) -> String {
    let role = prng.pick(&["req", "rep"]);
    let (crc, reject) = (prng.below(2), u8::from(prng.percent(20)));
    let length = data_length(prng, short);
    let (fields, rest) = match prng.percent(65) {
        true => {
            let (ird, ord) = (depth(prng), depth(prng));
            let (peer_to_peer, kinds) = (prng.below(2), kinds(prng));
            let fields = format!(" {peer_to_peer} {ird} {ord} {kinds}");
            (fields, length.saturating_sub(ESTABLISHMENT))
        }
        false => (String::new(), length),
    };
    let data = prng.bytes(rest);
    let room = room(prng, HEADER + length.max(rest));
    let data = hex_word(prng, &data);
    format!("startup2 {role} {crc} {reject}{fields} {data} {room}")
}

/// Gives a line that reads a startup frame of either revision, good or damaged in one place or two.
pub(super) fn unstartup2(prng: &mut Prng, short: bool) -> String {
    let role = prng.pick(&[Role::Request, Role::Reply]);
    let mut length = data_length(prng, short);
    let revision = prng.pick(&[2, 2, 2, 2, 2, 2, 2, 2, 2, 1, 1, 1, 0, 3, 0x82, 0xFF]);
    let mut flags = prng.draw() as u8 & 0x60;
    if prng.percent(20) {
        flags |= prng.draw() as u8 & 0x0F;
    }
    if prng.percent(65) {
        flags |= FLAG_ENHANCED;
        if length < ESTABLISHMENT && prng.percent(60) {
            length += ESTABLISHMENT;
        }
    }
    let mut frame = role.key().to_vec();
    frame.extend([flags, revision]);
    frame.extend((length as u16).to_be_bytes());
    frame.extend(private_data(prng, length));
    for _ in 0..prng.pick(&[0, 0, 0, 1, 1, 2]) {
        damage(prng, &mut frame);
    }
    let frame = hex_word(prng, &frame);
    let expected = match prng.percent(6) {
        true => prng.pick(&["req", "rep"]),
        false => role_word(role),
    };
    format!("unstartup2 {expected} {frame}")
}

/// Gives private data whose first four bytes may be any, A, B, C and D in them too.
fn private_data(prng: &mut Prng, length: usize) -> Vec<u8> {
    let mut data = prng.bytes(length);
    if length >= ESTABLISHMENT && prng.percent(70) {
        for at in [0, 2] {
            let depth = (depth(prng) & MAX_DEPTH) as u16 | prng.draw() as u16 & 0xC000;
            data[at..at + 2].copy_from_slice(&depth.to_be_bytes());
        }
    }
    data
}

/// Damages a frame in one place, as one of revision 1 is damaged, or in what is new.
fn damage(prng: &mut Prng, frame: &mut Vec<u8>) {
    if frame.len() < HEADER || prng.percent(55) {
        return damage_startup(prng, frame);
    }
    let behind = HEADER + prng.index(7);
    match prng.below(7) {
        0 => frame[16] ^= FLAG_ENHANCED,
        1 => frame[16] |= 0x80,
        2 => frame[17] = prng.below(4) as u8,
        3 | 4 => {
            let limit = MAX_PRIVATE_DATA as u16;
            let length = prng.pick(&[0, 1, 2, 3, 3, 4, 5, 0x0100, 0x0103, limit - 4, limit + 4]);
            frame[18..HEADER].copy_from_slice(&length.to_be_bytes());
        }
        5 => frame.truncate(behind),
        _ => frame.resize(frame.len().max(behind), 0),
    }
}

/// Gives a line that answers a request: depths often next to the one that they are compared with.
pub(super) fn agree(prng: &mut Prng) -> String {
    let (ird, ord, own) = (depth(prng), depth(prng), kinds(prng));
    let (peer_ird, peer_ord) = (depth_near(prng, ord), depth_near(prng, ird));
    let peer_to_peer = u8::from(prng.percent(70));
    let peer = kinds(prng);
    format!("agree {ird} {ord} {own} {peer_to_peer} {peer_ird} {peer_ord} {peer}")
}

/// Gives one of these lines with any of its words left out, doubled or another.
pub(super) fn odd_word(prng: &mut Prng) -> String {
    let line = match prng.below(4) {
        0 | 1 => startup2(prng, true),
        2 => unstartup2(prng, true),
        _ => agree(prng),
    };
    let mut words: Vec<&str> = line.split(' ').collect();
    let at = 1 + prng.index(words.len() - 1);
    match prng.below(8) {
        0 => drop(words.remove(at)),
        1 => words.insert(at, words[at]),
        2 => words.truncate(at),
        _ => {
            words[at] = prng.pick(&[
                "0",
                "1",
                "2",
                "00",
                "01",
                "-",
                "-1",
                "+1",
                "0x1",
                "on",
                "req",
                "Rep",
                "1.",
                "18446744073709551616",
            ])
        }
    }
    words.join(" ")
}
