//! Startup frames written and read, whole and damaged.

use super::frames::{append, flip_bit, hex_word, room};
use super::prng::Prng;
use crate::startup::{Role, HEADER, MAX_PRIVATE_DATA};

/// Gives a length of private data.
fn data_length(prng: &mut Prng, short: bool) -> usize {
    let length = match prng.below(100) {
        _ if short => prng.below(9),
        0..=79 => prng.below(24),
        80..=89 => prng.between(510, 514),
        90..=97 => prng.below(530),
        _ => prng.below(1500),
    };
    length as usize
}

/// Names the role in a script.
pub(super) fn role_word(role: Role) -> &'static str {
    match role {
        Role::Request => "req",
        Role::Reply => "rep",
    }
}

/// Gives a line that writes a startup frame.
pub(super) fn startup(prng: &mut Prng, short: bool) -> String {
    let role = prng.pick(&["req", "req", "rep"]);
    let (crc, reject) = (prng.below(2), u8::from(prng.percent(35)));
    let length = data_length(prng, short);
    let data = prng.bytes(length);
    let room = room(prng, HEADER + length);
    let data = hex_word(prng, &data);
    format!("startup {role} {crc} {reject} {data} {room}")
}

/// Gives a line that reads a startup frame, good or damaged in one place or two.
pub(super) fn unstartup(prng: &mut Prng, short: bool) -> String {
    let role = prng.pick(&[Role::Request, Role::Reply]);
    let length = data_length(prng, short);
    let mut frame = role.key().to_vec();
    frame.extend([prng.draw() as u8 & 0x60, 1]);
    frame.extend((length as u16).to_be_bytes());
    frame.extend(prng.bytes(length));
    for _ in 0..prng.pick(&[0, 1, 1, 1, 1, 2]) {
        damage_startup(prng, &mut frame);
    }
    let frame = hex_word(prng, &frame);
    let expected = match prng.percent(8) {
        true => prng.pick(&["req", "rep"]),
        false => role_word(role),
    };
    format!("unstartup {expected} {frame}")
}

/// Damages a startup frame in one place.
pub(super) fn damage_startup(prng: &mut Prng, frame: &mut Vec<u8>) {
    if frame.len() < HEADER {
        return;
    }
    match prng.below(12) {
        0 => flip_bit(prng, &mut frame[..16]),
        1 => flip_bit(prng, frame),
        2 => frame[17] = prng.pick(&[0, 2, 3, 0x81, 0xFF]),
        3 => frame[16] |= 0x80,
        4 => frame[16] = prng.draw() as u8,
        5 => frame[16] |= 0x1F,
        6 | 7 => {
            let limit = MAX_PRIVATE_DATA as u16;
            let length = prng.pick(&[0, 1, limit - 1, limit, limit + 1, 0x8000, 0xFFFF]);
            frame[18..HEADER].copy_from_slice(&length.to_be_bytes());
        }
        8 => frame.truncate(prng.index(frame.len())),
        9 => frame.truncate(prng.between(18, 21) as usize),
        10 => drop(frame.pop()),
        _ => append(prng, frame),
    }
}
