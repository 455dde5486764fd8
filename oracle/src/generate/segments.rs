//! FPDUs for a stream of a device: most of them good, the others one fault away from good.

use super::draft::{frame, Draft, Sink};
use super::faults::{damage, spoil};
use super::prng::Prng;
use crate::ddp::{TAGGED_HEADER, UNTAGGED_HEADER};
use crate::mpa::MAX_ULPDU;
use crate::rdmap;
use crate::state::{stream_domain, Device, Window};
use crate::state::{RIGHT_READ, RIGHT_WRITE, WINDOWS_PER_DOMAIN};

/// The most bytes of payload that a tagged or an untagged segment has.
pub(super) const MAX_TAGGED: u64 = (MAX_ULPDU - TAGGED_HEADER) as u64;
pub(super) const MAX_UNTAGGED: u64 = (MAX_ULPDU - UNTAGGED_HEADER) as u64;

/// What a segment is to carry.
#[derive(Clone, Copy, Debug, PartialEq, Eq)]
pub enum Kind {
    Write,
    Send,
    Read,
    Terminate,
}

/// Picks the kind of a segment.
pub fn kind(prng: &mut Prng) -> Kind {
    match prng.below(100) {
        0..=34 => Kind::Write,
        35..=71 => Kind::Send,
        72..=96 => Kind::Read,
        _ => Kind::Terminate,
    }
}

/// Gives an FPDU of this kind, with one fault as many times in a hundred as `faulty` says.
pub fn fpdu(prng: &mut Prng, device: &Device, stream: usize, kind: Kind, faulty: u64) -> Vec<u8> {
    let mut draft = draft(prng, device, stream, kind);
    let fault = prng.percent(faulty);
    let damaged = fault && prng.percent(20);
    if fault && !damaged {
        spoil(prng, device, stream, kind, &mut draft);
    }
    if prng.percent(10) {
        draft.ddp_reserved = prng.draw() as u8;
        draft.rdmap_reserved = prng.draw() as u8;
    }
    let pad = if prng.percent(10) { 0xA5 } else { 0 };
    let ulpdu = draft.ulpdu();
    if damaged {
        damage(prng, ulpdu, pad)
    } else {
        frame(&ulpdu, pad)
    }
}

/// Drafts a good segment as far as the device's state has one.
fn draft(prng: &mut Prng, device: &Device, stream: usize, kind: Kind) -> Draft {
    match kind {
        Kind::Write => write(prng, device, stream),
        Kind::Send => send(prng, device, stream),
        Kind::Read => read(prng, device, stream),
        Kind::Terminate => terminate(prng, device, stream),
    }
}

/// Picks a live window of the stream's domain with one of these rights and gives its STag.
pub(super) fn live_window(
    prng: &mut Prng,
    device: &Device,
    stream: usize,
    rights: u8,
) -> Option<(u32, Window)> {
    let first = stream_domain(stream) * WINDOWS_PER_DOMAIN;
    let fitting: Vec<usize> = (first..first + WINDOWS_PER_DOMAIN)
        .filter(|&number| device.windows[number].live && device.windows[number].rights & rights > 0)
        .collect();
    if fitting.is_empty() {
        return None;
    }
    let number = prng.pick(&fitting);
    let window = device.windows[number];
    Some((stag(number as u64, window.key), window))
}

/// Makes an STag.
pub(super) fn stag(number: u64, key: u8) -> u32 {
    (number as u32) << 8 | u32::from(key)
}

/// Gives a length up to `most`: mostly short, at times all of it.
pub(super) fn length_up_to(prng: &mut Prng, most: u64) -> u64 {
    match prng.below(10) {
        0 => most,
        1 => prng.below(most + 1),
        2 => 0,
        _ => prng.between(1.min(most), most.min(24)),
    }
}

/// Gives a tagged offset from which `length` bytes lie inside a window.
pub(super) fn inside(prng: &mut Prng, window: &Window, length: u64) -> u64 {
    let slack = window.length - length;
    let offset = match prng.below(3) {
        0 => 0,
        1 => slack,
        _ => prng.below(slack + 1),
    };
    window.base + offset
}

/// Drafts a Write.
fn write(prng: &mut Prng, device: &Device, stream: usize) -> Draft {
    let mut draft = Draft::new(true, rdmap::WRITE);
    draft.last = prng.percent(60);
    match live_window(prng, device, stream, RIGHT_WRITE) {
        Some((stag, window)) => {
            let length = length_up_to(prng, window.length.min(MAX_TAGGED));
            draft.stag = stag;
            draft.to = inside(prng, &window, length);
            draft.payload = prng.bytes(length as usize);
        }
        None => (draft.stag, draft.to) = (prng.draw() as u32, prng.draw()),
    }
    draft
}

/// Drafts the next segment of a Send.
fn send(prng: &mut Prng, device: &Device, stream: usize) -> Draft {
    let record = &device.streams[stream];
    let opcode = record.sending.unwrap_or(prng.pick(&[3, 3, 4, 5, 5, 6]));
    let mut draft = Draft::new(false, opcode);
    draft.last = prng.percent(60);
    draft.msn = record.next_msn[0];
    draft.mo = record.taken as u32;
    draft.stag = prng.draw() as u32;
    if rdmap::invalidates(opcode) && draft.last {
        let any = RIGHT_WRITE | RIGHT_READ;
        let found = live_window(prng, device, stream, any);
        draft.stag = found.map_or(draft.stag, |(stag, _)| stag);
    }
    let room = record.buffers.first().map_or(9, |buffer| buffer.length);
    let length = length_up_to(prng, (room - record.taken).min(MAX_UNTAGGED));
    draft.payload = prng.bytes(length as usize);
    draft
}

/// Drafts a Read Request.
fn read(prng: &mut Prng, device: &Device, stream: usize) -> Draft {
    let mut draft = Draft::new(false, rdmap::READ_REQUEST);
    draft.qn = rdmap::READ_QUEUE;
    draft.msn = device.streams[stream].next_msn[1];
    (draft.stag, draft.to) = (prng.draw() as u32, prng.draw());
    let mut size = draft.to as u32 % 4;
    if let Some((stag, window)) = live_window(prng, device, stream, RIGHT_READ) {
        size = length_up_to(prng, window.length) as u32;
        draft.stag = stag;
        draft.to = inside(prng, &window, u64::from(size));
    }
    draft.sink = Some(Sink {
        stag: prng.draw() as u32,
        to: prng.draw(),
        size,
    });
    draft
}

/// Drafts a Terminate.
fn terminate(prng: &mut Prng, device: &Device, stream: usize) -> Draft {
    let mut draft = Draft::new(false, rdmap::TERMINATE);
    draft.qn = rdmap::TERMINATE_QUEUE;
    draft.msn = device.streams[stream].next_msn[2];
    let (least, most) = (rdmap::TERMINATE_MIN as u64, rdmap::TERMINATE_MAX as u64);
    let any = prng.between(least, most);
    let length = prng.pick(&[least, most, any]) as usize;
    draft.payload = prng.bytes(length);
    draft
}
