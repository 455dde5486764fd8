//! The words of a line.

use std::net::SocketAddr;

use rnic::{KIND_READ, KIND_SEND, KIND_WRITE, RIGHT_READ, RIGHT_WRITE};

/// Says what a line of this name looks like.
pub(super) fn usage(name: &str) -> String {
    let form = match name {
        "store" => "store LENGTH",
        "part" => "part DOMAIN START END",
        "listen" => "listen DOMAIN ADDRESS:PORT, or listen DOMAIN off",
        "buffers" => "buffers DOMAIN COUNT LENGTH START",
        "window" => "window NUMBER KEY BASE LENGTH PLACE RIGHTS",
        "crc" => "crc on, or crc off",
        "startup" => "startup SECONDS",
        "ird" => "ird N",
        "ord" => "ord N",
        _ => return format!("there is no setting `{name}`"),
    };
    format!("the line has another form: {form}")
}

/// Reads a number, decimal or hex with 0x before it.
pub fn number(word: &str) -> Result<u64, String> {
    let read = match word.strip_prefix("0x") {
        Some(digits) if !digits.starts_with('+') => u64::from_str_radix(digits, 16),
        _ if word.starts_with('+') => return Err(no_number(word)),
        _ => word.parse(),
    };
    read.map_err(|_| no_number(word))
}

/// Says that a word is no number.
fn no_number(word: &str) -> String {
    format!("`{word}` is no number from 0 to 2^64 - 1")
}

/// Reads a domain's number.
pub(super) fn owner(word: &str) -> Result<usize, String> {
    match number(word)? {
        domain @ 0..=3 => Ok(domain as usize),
        _ => Err(format!("`{word}` is no domain: they are 0 to 3")),
    }
}

/// Reads an address to listen on; `off` is none.
pub(super) fn listening(word: &str) -> Result<Option<SocketAddr>, String> {
    match word {
        "off" => Ok(None),
        _ => word.parse().map(Some).map_err(|_| {
            format!("`{word}` is no address with a port, such as 127.0.0.1:7700 or [::1]:7700")
        }),
    }
}

/// Reads rights.
pub(super) fn rights_of(word: &str) -> Result<u64, String> {
    match word {
        "read" => Ok(RIGHT_READ),
        "write" => Ok(RIGHT_WRITE),
        "both" => Ok(RIGHT_READ | RIGHT_WRITE),
        _ => Err(format!("`{word}` is none of read, write and both")),
    }
}

/// Reads how many reads at a time, a field of 14 bits whose highest number says that nothing is said.
pub(super) fn depth_of(word: &str) -> Result<u64, String> {
    match number(word)? {
        depth @ 0..=0x3FFE => Ok(depth),
        _ => Err(format!("`{word}` is not from 0 to 16382")),
    }
}

/// Reads a kind of first message.
pub(super) fn kind_of(word: &str) -> Result<u64, String> {
    match word {
        "send" => Ok(KIND_SEND),
        "write" => Ok(KIND_WRITE),
        "read" => Ok(KIND_READ),
        _ => Err(format!("`{word}` is none of send, write and read")),
    }
}
