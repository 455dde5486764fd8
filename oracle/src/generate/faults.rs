//! Faults of a segment: one field set wrong, or the frame damaged.

use super::draft::{frame, Draft};
use super::prng::Prng;
use super::segments::{inside, live_window, stag, Kind, MAX_UNTAGGED};
use crate::mpa::{CRC_FIELD, LENGTH_FIELD, MAX_ULPDU};
use crate::rdmap;
use crate::state::{stream_domain, Device, RIGHT_READ, RIGHT_WRITE};
use crate::state::{WINDOWS, WINDOWS_PER_DOMAIN};

/// Sets one field of a draft wrong.
pub(super) fn spoil(
    prng: &mut Prng,
    device: &Device,
    stream: usize,
    kind: Kind,
    draft: &mut Draft,
) {
    let (target, queue) = match kind {
        Kind::Write => (65, 0),
        Kind::Send if draft.last && rdmap::invalidates(draft.opcode) => (50, 25),
        Kind::Send => (0, 60),
        Kind::Read => (50, 25),
        Kind::Terminate => (0, 60),
    };
    let choice = prng.below(100);
    if choice < target {
        if draft.reach() == 0 && kind == Kind::Write {
            draft.payload = prng.bytes(1);
        }
        spoil_target(prng, device, stream, kind, draft);
    } else if choice < target + queue {
        spoil_queue(prng, device, stream, draft);
    } else {
        spoil_control(prng, draft);
    }
}

/// Sets the STag or the tagged offset wrong.
fn spoil_target(prng: &mut Prng, device: &Device, stream: usize, kind: Kind, draft: &mut Draft) {
    let domain = stream_domain(stream) as u64;
    let number = (draft.stag >> 8) as usize;
    let window = device.windows.get(number).copied().unwrap_or_default();
    let slots = WINDOWS_PER_DOMAIN as u64;
    let reach = draft.reach();
    let choice = match kind {
        Kind::Send => prng.pick(&[0, 0, 0, 1, 2, 3]),
        Kind::Read => prng.pick(&[0, 0, 0, 1, 2, 3, 4, 5, 6, 7, 7, 7, 8, 9, 9, 9, 9, 9, 9]),
        _ => prng.pick(&[0, 0, 0, 1, 2, 3, 4, 5, 6, 7, 7, 7, 8, 9, 9, 9]),
    };
    match choice {
        0 => draft.stag = other_domain(prng, device, domain),
        1 => draft.stag = stag(prng.pick(&[64, 65, 80, 0x3FFF, 0xFF_FFFF]), window.key),
        2 => draft.stag ^= 1 << prng.below(8),
        3 => draft.stag = stag(domain * slots + prng.below(slots), prng.draw() as u8),
        4 => draft.to = window.base.wrapping_sub(1),
        5 => draft.to = (window.base + window.length - reach.min(window.length)).wrapping_add(1),
        6 => draft.to = 0u64.wrapping_sub(reach),
        7 => draft.to = 0u64.wrapping_sub(reach).wrapping_add(1),
        8 => draft.to = prng.draw(),
        _ => other_right(prng, device, stream, kind, draft),
    }
}

/// Gives an STag of another domain's window, with its last key or, where it has had none, one that is often used.
pub(super) fn other_domain(prng: &mut Prng, device: &Device, domain: u64) -> u32 {
    let slots = WINDOWS_PER_DOMAIN as u64;
    let slot = prng.below(slots).min(prng.below(slots));
    let number = ((domain + prng.between(1, 3)) * slots + slot) % WINDOWS as u64;
    match device.windows[number as usize].key {
        0 => stag(number, prng.between(1, 4) as u8),
        key => stag(number, key),
    }
}

/// Aims at a window that has not the right.
fn other_right(prng: &mut Prng, device: &Device, stream: usize, kind: Kind, draft: &mut Draft) {
    let (wanted, other) = match kind {
        Kind::Read => (RIGHT_READ, RIGHT_WRITE),
        _ => (RIGHT_WRITE, RIGHT_READ),
    };
    for _ in 0..8 {
        if let Some((stag, window)) = live_window(prng, device, stream, other) {
            if window.rights & wanted == 0 && window.length >= draft.reach() {
                draft.stag = stag;
                draft.to = inside(prng, &window, draft.reach());
            }
        }
    }
}

/// Sets the queue, MSN, MO or length wrong.
fn spoil_queue(prng: &mut Prng, device: &Device, stream: usize, draft: &mut Draft) {
    match prng.below(12) {
        0 => draft.qn = prng.pick(&[3, 4, 0x100, 1 << 31, u32::MAX]),
        1 => draft.qn = prng.below(3) as u32,
        2 => draft.msn = draft.msn.wrapping_add(1),
        3 => draft.msn = draft.msn.wrapping_sub(1),
        4 => draft.msn = prng.draw() as u32,
        5 => draft.mo = draft.mo.wrapping_add(1),
        6 => draft.mo = draft.mo.wrapping_sub(1),
        7 => draft.mo = prng.pick(&[0, 1, u32::MAX, 1 << 16]),
        8..=9 => {
            let record = &device.streams[stream];
            let room = match draft.qn {
                0 => record
                    .buffers
                    .first()
                    .map_or(0, |b| b.length - record.taken),
                1 => 0,
                _ => 52,
            };
            draft.payload = prng.bytes((room + 1).min(MAX_UNTAGGED) as usize);
        }
        10 if draft.qn > 0 => draft.cut = prng.index(30),
        _ => draft.cut = 1,
    }
}

/// Sets a version, the opcode or a flag wrong.
fn spoil_control(prng: &mut Prng, draft: &mut Draft) {
    match prng.below(8) {
        0 | 1 => draft.ddp_version = prng.pick(&[0, 2, 3]),
        2 | 3 => draft.rdmap_version = prng.pick(&[0, 2, 3]),
        4 => draft.opcode = prng.below(16) as u8,
        5 => draft.opcode = prng.between(0, 8) as u8,
        6 => draft.tagged = !draft.tagged,
        _ => draft.last = !draft.last,
    }
}

/// Frames a ULPDU and damages the frame.
pub(super) fn damage(prng: &mut Prng, mut ulpdu: Vec<u8>, pad: u8) -> Vec<u8> {
    let mut bytes = frame(&ulpdu, pad);
    match prng.below(10) {
        0 => {
            let at = prng.index(bytes.len());
            bytes[at] ^= 1 << prng.below(8);
        }
        1 | 2 => {
            let at = bytes.len() - CRC_FIELD;
            bytes[at..].reverse();
        }
        3 => bytes.truncate(prng.index(bytes.len())),
        4 => bytes.truncate(prng.pick(&[0, 1, 2, 3])),
        5 => {
            let limit = MAX_ULPDU as u16;
            let other = prng.pick(&[limit, limit + 1, limit + 2, 0x8000, 0xFFFF]);
            bytes[..LENGTH_FIELD].copy_from_slice(&other.to_be_bytes());
        }
        6 => {
            let over = MAX_ULPDU + 1;
            ulpdu.resize(prng.pick(&[2049, MAX_ULPDU, over, over]), 0);
            bytes = frame(&ulpdu, pad);
        }
        _ => {
            ulpdu.truncate(prng.pick(&[0, 1, 13, 14, 16, 17, 18]));
            bytes = frame(&ulpdu, pad);
        }
    }
    bytes
}
