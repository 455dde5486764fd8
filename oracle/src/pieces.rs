//! The CRC of bytes that come in pieces: carried on over the next piece, or joined from those of two.

use crate::crc::shift_byte;

/// What some zero bytes make of a remainder, as a matrix over single bits: entry `i` is what they make of bit `i`.
#[derive(Clone, Copy)]
struct Zeros([u32; 32]);

impl Zeros {
    /// Gives what one zero byte does.
    fn one_byte() -> Self {
        let mut columns = [0; 32];
        for (bit, column) in columns.iter_mut().enumerate() {
            *column = shift_byte(1 << bit);
        }
        Zeros(columns)
    }

    /// Gives what they make of a remainder.
    fn apply(&self, remainder: u32) -> u32 {
        let of_bit = |(bit, column): (usize, &u32)| (remainder >> bit & 1) * column;
        let columns = self.0.iter().enumerate().map(of_bit);
        columns.fold(0, |sum, column| sum ^ column)
    }

    /// Gives what twice as many do.
    fn twice(&self) -> Self {
        Zeros(self.0.map(|column| self.apply(column)))
    }
}

/// Carries a CRC on over the bytes that follow, bit by bit.
pub fn carry_on(crc: u32, bytes: &[u8]) -> u32 {
    !bytes
        .iter()
        .fold(!crc, |crc, &byte| shift_byte(crc ^ u32::from(byte)))
}

/// Joins the CRCs of two pieces, the second of that many bytes.
///
/// A CRC sums its start value and its bytes, each moved on by the bytes after it. The second's has its own start in the
/// place of what the first left; the two differ by the first's CRC, moved on by as many zero bytes as the second has.
pub fn join(first: u32, second: u32, length: u32) -> u32 {
    let mut zeros = Zeros::one_byte();
    let mut moved = first;
    let mut left = length;
    while left > 0 {
        if left & 1 == 1 {
            moved = zeros.apply(moved);
        }
        zeros = zeros.twice();
        left >>= 1;
    }
    moved ^ second
}

#[cfg(test)]
mod tests {
    use super::*;
    use crate::crc::crc32c_bitwise;
    use crate::generate::prng::Prng;

    /// Bytes cut at every place, carried on and joined, have the CRC of the whole.
    #[test]
    fn cut_at_every_place() {
        let mut prng = Prng::new(2);
        for length in [0, 1, 2, 7, 64, 301] {
            let bytes = prng.bytes(length);
            let whole = crc32c_bitwise(&bytes);
            for cut in 0..=length {
                let (first, second) = bytes.split_at(cut);
                let before = crc32c_bitwise(first);
                assert_eq!(carry_on(before, second), whole);
                let after = crc32c_bitwise(second);
                assert_eq!(join(before, after, second.len() as u32), whole);
            }
        }
    }

    /// Zero bytes by the matrix are zero bytes one by one.
    #[test]
    fn zeros_one_by_one() {
        let mut moved = 0x8A91_36AA;
        for length in 0..3000 {
            assert_eq!(join(0x8A91_36AA, 0, length), moved);
            moved = shift_byte(moved);
        }
    }

    /// Three pieces joined from either end are the same, of as many bytes as a length can say.
    #[test]
    fn joined_in_either_order() {
        let mut prng = Prng::new(3);
        for _ in 0..200 {
            let (a, b, c) = (prng.draw() as u32, prng.draw() as u32, prng.draw() as u32);
            let m = prng.pick(&[0, 1, 65_536, u32::MAX / 2]);
            let n = prng.draw() as u32 / 2;
            let left = join(join(a, b, m), c, n);
            let right = join(a, join(b, c, n), m + n);
            assert_eq!(left, right);
        }
        assert_eq!(join(7, 9, u32::MAX), join(join(7, 0, u32::MAX - 5), 9, 5));
    }
}
