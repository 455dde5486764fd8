//! The CRC of bytes whole and in pieces, beside the second program's ways.

use oracle::crc::crc32c_bitwise;
use oracle::generate::prng::Prng;
use oracle::pieces::{carry_on, join};
use rnic::{crc32c, crc32c_join, crc32c_update};

/// The CRC of some pieces, each carried on from those before it.
fn in_turn(pieces: &[&[u8]]) -> u32 {
    let update = |running, piece: &&[u8]| crc32c_update(running, piece);
    !pieces.iter().fold(!0, update)
}

/// The CRC of some pieces, joined from theirs, the first two first.
fn joined(pieces: &[&[u8]]) -> u32 {
    let add = |crc, piece: &&[u8]| crc32c_join(crc, crc32c(piece), piece.len() as u32);
    pieces.iter().fold(0, add)
}

/// Bytes of any length, cut in up to five pieces anywhere.
#[test]
fn pieces_cut_anywhere() {
    let mut prng = Prng::new(12);
    for round in 0..3000 {
        let length = match round % 10 {
            0 => prng.index(20_000),
            1..=3 => prng.index(8),
            _ => prng.index(300),
        };
        let bytes = prng.bytes(length);
        let mut pieces = Vec::new();
        let mut rest = &bytes[..];
        for _ in 0..prng.index(5) {
            let (piece, after) = rest.split_at(prng.index(rest.len() + 1));
            pieces.push(piece);
            rest = after;
        }
        pieces.push(rest);
        let whole = crc32c_bitwise(&bytes);
        assert_eq!(crc32c(&bytes), whole);
        assert_eq!(in_turn(&pieces), whole);
        assert_eq!(joined(&pieces), whole);
    }
}

/// Every place of some bytes, and each start of them in memory.
#[test]
fn pieces_cut_everywhere() {
    let bytes = Prng::new(13).bytes(200);
    for start in 0..9 {
        let bytes = &bytes[start..];
        let whole = crc32c_bitwise(bytes);
        for cut in 0..=bytes.len() {
            let (first, second) = bytes.split_at(cut);
            assert_eq!(in_turn(&[first, second]), whole);
            assert_eq!(joined(&[first, second]), whole);
        }
    }
}

/// Any numbers: running values, CRCs, and lengths up to the last.
#[test]
fn any_numbers() {
    let mut prng = Prng::new(14);
    for _ in 0..20_000 {
        let (a, b) = (prng.draw() as u32, prng.draw() as u32);
        let length = match prng.below(4) {
            0 => prng.pick(&[0, 1, 1 << 31, u32::MAX - 1, u32::MAX]),
            _ => prng.draw() as u32 >> prng.below(32),
        };
        assert_eq!(crc32c_join(a, b, length), join(a, b, length));
        let count = prng.index(40);
        let bytes = prng.bytes(count);
        assert_eq!(!crc32c_update(!a, &bytes), carry_on(a, &bytes));
    }
}
