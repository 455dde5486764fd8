//! CRC-32C: polynomial 0x1EDC6F41, bits reflected, start all ones, result inverted.

/// The polynomial 0x1EDC6F41 with its bits reflected.
const POLYNOMIAL: u32 = 0x82F6_3B78;

/// The remainder of each byte value, eight bits at a time.
static TABLE: [u32; 256] = build_table();

/// Moves the remainder on by one bit.
const fn shift_bit(remainder: u32) -> u32 {
    if remainder & 1 == 1 {
        (remainder >> 1) ^ POLYNOMIAL
    } else {
        remainder >> 1
    }
}

/// Moves the remainder on by the eight bits that it holds lowest.
pub(crate) const fn shift_byte(mut remainder: u32) -> u32 {
    let mut bit = 0;
    while bit < 8 {
        remainder = shift_bit(remainder);
        bit += 1;
    }
    remainder
}

/// Builds the remainder of each byte value.
const fn build_table() -> [u32; 256] {
    let mut table = [0; 256];
    let mut value = 0;
    while value < 256 {
        table[value] = shift_byte(value as u32);
        value += 1;
    }
    table
}

/// Computes the CRC bit by bit.
pub fn crc32c_bitwise(bytes: &[u8]) -> u32 {
    !bytes
        .iter()
        .fold(!0, |crc, &byte| shift_byte(crc ^ u32::from(byte)))
}

/// Computes the CRC byte by byte with one table.
pub fn crc32c(bytes: &[u8]) -> u32 {
    !bytes.iter().fold(!0, |crc: u32, &byte| {
        (crc >> 8) ^ TABLE[usize::from(crc as u8 ^ byte)]
    })
}

/// Gives the CRC in the order in which its four bytes stand in an FPDU.
pub fn crc_field(bytes: &[u8]) -> [u8; 4] {
    crc32c(bytes).to_le_bytes()
}

#[cfg(test)]
mod tests {
    use super::*;
    use crate::generate::prng::Prng;

    /// The check value of the field's catalogues.
    #[test]
    fn check_value() {
        assert_eq!(crc32c_bitwise(b"123456789"), 0xE306_9283);
        assert_eq!(crc32c(b"123456789"), 0xE306_9283);
    }

    /// Both ways of computing give the same for many lengths.
    #[test]
    fn table_equals_bitwise() {
        let mut prng = Prng::new(1);
        for length in 0..600 {
            let bytes = prng.bytes(length);
            assert_eq!(crc32c(&bytes), crc32c_bitwise(&bytes));
        }
    }
}
