//! Messages written: their segments alone, and each framed, beside the same in Rust.
//!
//! Framed, the FPDU writer writes the CRC of every FPDU, ours and theirs: a peer whose CRC is off does not look at it. The
//! second program's CRC goes by one table. Ours is begun anew each time, and called through the C interface; the second
//! program's message, which holds its bytes, goes back to its start.

use std::hint::black_box;

use rnic::{write_fpdu, Message};
use oracle::generate::prng::Prng;
use oracle::mpa;
use oracle::sender;

use crate::measure::{measure, repeated, Work};
use crate::placed::Placed;
use crate::table;

/// The longest FPDU.
const FRAME: usize = 8200;
/// The messages' lengths, with the largest ULPDU of each.
const LENGTHS: [(usize, u64); 5] = [
    (64, 2048),
    (2034, 2048),
    (65_536, 2048),
    (8178, 8192),
    (65_536, 8192),
];

/// Writes the table.
pub fn write() {
    println!("\n### Messages written");
    let columns = ["ours", "second program", "ours ÷ second program"];
    table::head(&["message", "bytes", "largest ULPDU", "written"], &columns);
    for opcode in [0, 3] {
        for (length, limit) in LENGTHS {
            for framed in [false, true] {
                row(opcode, length, limit, framed);
            }
        }
    }
}

/// Writes a message with ours, in ULPDUs as long as the output is, and gives how many bytes it came to.
fn ours(opcode: u64, bytes: &[u8], framed: bool, out: &mut [u8], frame: &mut [u8]) -> usize {
    let (length, limit) = (bytes.len() as u64, out.len() as u64);
    let begun = match opcode {
        0 => Message::write(limit, 7, 4096, length),
        _ => Message::send(limit, opcode, 1, 0, length),
    };
    let mut message = begun.expect("a message in range");
    let mut total = 0;
    while let Some(size) = message.next(bytes, out).expect("room for a segment") {
        total += match framed {
            true => write_fpdu(&out[..size], frame).expect("room for a frame"),
            false => size,
        };
        black_box((&out, &frame));
    }
    total
}

/// Writes a message with the second program's writer.
fn theirs(message: &mut sender::Message, framed: bool, out: &mut [u8], frame: &mut [u8]) -> usize {
    message.restart();
    let mut total = 0;
    while let Some(size) = message.next(out).expect("room for a segment") {
        total += match framed {
            true => mpa::write_fpdu(&out[..size], frame).expect("room for a frame"),
            false => size,
        };
        black_box((&out, &frame));
    }
    total
}

/// Gives the output of a message's segments, and that of FPDUs.
fn outputs(bytes: &[u8], limit: u64) -> (Placed, Placed) {
    let out = Placed::behind(bytes, limit as usize);
    let frame = Placed::behind(&out, FRAME);
    (out, frame)
}

/// Times both on the same message, once they have come to as many bytes.
fn row(opcode: u64, length: usize, limit: u64, framed: bool) {
    let bytes = Prng::new(length as u64).bytes(length);
    let (mut out, mut frame) = outputs(&bytes, limit);
    let other = bytes.clone();
    let (mut other_out, mut other_frame) = outputs(&other, limit);
    let begun = match opcode {
        0 => sender::Message::write(limit, 7, 4096, other),
        _ => sender::Message::send(limit, opcode, 1, 0, other),
    };
    let mut message = begun.expect("a message in range");
    let total = ours(opcode, &bytes, framed, &mut out, &mut frame);
    let other = theirs(&mut message, framed, &mut other_out, &mut other_frame);
    assert!(total == other && *out == *other_out && *frame == *other_frame);
    let (out, frame) = (&mut out[..], &mut frame[..]);
    let (other_out, other_frame) = (&mut other_out[..], &mut other_frame[..]);
    let mut contenders: [Work; 2] = [
        repeated(|| {
            black_box(ours(opcode, black_box(&bytes), framed, out, frame));
        }),
        repeated(|| {
            black_box(theirs(&mut message, framed, other_out, other_frame));
        }),
    ];
    let times = measure(1, &mut contenders);
    let kind = if opcode == 0 { "Write" } else { "Send" };
    let written = if framed {
        "FPDUs, with CRC"
    } else {
        "segments"
    };
    let mut cells = vec![String::from(kind)];
    cells.extend([length as u64, limit].map(table::grouped));
    cells.push(String::from(written));
    cells.extend(times.iter().map(table::times));
    cells.push(table::ratio(&times[0], &times[1]));
    table::row(&cells);
}
