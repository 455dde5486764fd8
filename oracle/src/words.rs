//! The words of a line: numbers, switches and roles.

use crate::hex;
use crate::startup::Role;
use crate::state::{Part, DOMAINS};

/// Reads a number of 0 to 2^64 - 1.
pub fn number(word: &[u8]) -> Option<u64> {
    word.iter().try_fold(0u64, |value, byte| {
        if !byte.is_ascii_digit() {
            return None;
        }
        value.checked_mul(10)?.checked_add(u64::from(byte - b'0'))
    })
}

/// Reads the starts and ends of the four parts.
pub fn parts(words: &[&[u8]]) -> Option<[Part; DOMAINS]> {
    if words.len() != 2 * DOMAINS {
        return None;
    }
    let mut parts = [Part::default(); DOMAINS];
    for (part, ends) in parts.iter_mut().zip(words.chunks_exact(2)) {
        part.start = number(ends[0])?;
        part.end = number(ends[1])?;
    }
    Some(parts)
}

/// Reads `on` or `off`.
pub fn on_off(word: &[u8]) -> Option<bool> {
    match word {
        b"on" => Some(true),
        b"off" => Some(false),
        _ => None,
    }
}

/// Reads `0` or `1`.
pub fn bit(word: &[u8]) -> Option<bool> {
    match word {
        b"0" => Some(false),
        b"1" => Some(true),
        _ => None,
    }
}

/// Reads `req` or `rep`.
pub fn role(word: &[u8]) -> Option<Role> {
    match word {
        b"req" => Some(Role::Request),
        b"rep" => Some(Role::Reply),
        _ => None,
    }
}

/// Reads a CRC: eight hex digits, the number's own.
pub fn crc(word: &[u8]) -> Option<u32> {
    let bytes = hex::decode(word)?.try_into().ok()?;
    Some(u32::from_be_bytes(bytes))
}
