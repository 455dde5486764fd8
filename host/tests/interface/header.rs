//! The header and this crate say the same: the words of a device, the rooms, the calls' numbers, the answers' kinds, and
//! startup's words and kinds.

use std::fs;
use std::mem::offset_of;
use std::path::Path;

use oracle::mpa::{MAX_FPDU, MAX_ULPDU};
use oracle::state::HELD;
use rnic::raw::Written;
use rnic::raw::{call, kind, startup, stream, written, Arguments, Rnic, RnicMessage, Words};
use rnic::raw::{RnicStartup, RnicTerms, DEVICE_WORDS, ROOM, ROOMS};
use rnic::{DEPTH_UNSAID, KIND_READ, KIND_SEND, KIND_WRITE};
use rnic::{OPCODE_SEND, OPCODE_SEND_INVALIDATE, OPCODE_SEND_SE, OPCODE_SEND_SE_INVALIDATE};
use rnic::{RIGHT_READ, RIGHT_WRITE};

/// Reads the header.
pub fn header() -> String {
    let path = Path::new(env!("CARGO_MANIFEST_DIR")).join("../include/rnic.h");
    fs::read_to_string(path).unwrap()
}

/// Gives the number that the header defines a name as.
pub fn defined(header: &str, name: &str) -> Option<u64> {
    number_after(header, &format!("#define {name} "))
}

/// Gives the number that follows a text of the header, which stands there once.
fn number_after(header: &str, text: &str) -> Option<u64> {
    let mut found = header.split(text).skip(1);
    let (rest, None) = (found.next()?, found.next()) else {
        return None;
    };
    let (digits, base) = match rest.strip_prefix("0x") {
        Some(digits) => (digits, 16),
        None => (rest, 10),
    };
    let digits = digits.split(|next: char| !next.is_digit(base)).next()?;
    u64::from_str_radix(digits, base).ok()
}

/// The version, whole and in its three numbers, is the crate's.
#[test]
fn versions_agree() {
    let header = header();
    let line = format!("#define RNIC_VERSION \"{}\"\n", rnic::version());
    assert_eq!(header.matches(&line).count(), 1);
    let parts = ["MAJOR", "MINOR", "PATCH"].map(|part| {
        let part = defined(&header, &format!("RNIC_VERSION_{part}"));
        part.unwrap().to_string()
    });
    assert_eq!(parts.join("."), rnic::VERSION);
}

/// The limits are those of the second program and of the rooms.
#[test]
fn limits_agree() {
    let header = header();
    for (name, limit) in [
        ("DOMAINS", 4),
        ("STREAMS", 16),
        ("WINDOWS", 64),
        ("DOMAIN_STREAMS", 16 / 4),
        ("DOMAIN_WINDOWS", 64 / 4),
        ("MAX_STORE", 1 << 24),
        ("MAX_BUFFERS", 8),
        ("MAX_READS", 8),
        ("MAX_ULPDU", MAX_ULPDU as u64),
        ("MAX_FPDU", MAX_FPDU as u64),
        ("MIN_LIMIT", 19),
    ] {
        let found = defined(&header, &format!("RNIC_{name}"));
        assert_eq!(found, Some(limit), "{name}");
    }
}

#[test]
fn header_and_crate_agree() {
    let header = header();
    for (name, size) in [
        ("RNIC_C_DEVICE_WORDS", size_of::<Rnic>()),
        ("RNIC_C_ARGUMENTS", size_of::<Arguments>()),
        ("RNIC_C_WORDS", size_of::<Words>()),
        ("RNIC_C_MESSAGE_WORDS", size_of::<RnicMessage>()),
        ("RNIC_C_WRITTEN_WORDS", size_of::<Written>()),
    ] {
        let words = size / size_of::<u64>();
        assert_eq!(defined(&header, name), Some(words as u64), "{name}");
    }
    assert_eq!(defined(&header, "RNIC_C_ROOM"), Some(ROOM as u64));
    assert_eq!(defined(&header, "RNIC_C_ROOMS"), Some(ROOMS as u64));
    assert_eq!((ROOM, ROOMS), (MAX_FPDU, HELD));
    assert_eq!(defined(&header, "RNIC_C_OFFER_TAKEN"), Some(6));
    assert_eq!(size_of::<Rnic>(), size_of::<[u64; DEVICE_WORDS]>());
    assert_eq!(align_of::<Rnic>(), align_of::<u64>());
    for (name, number) in [
        ("OPEN", call::OPEN),
        ("OPEN_STREAM", call::OPEN_STREAM),
        ("CLOSE_STREAM", call::CLOSE_STREAM),
        ("REGISTER", call::REGISTER),
        ("DROP_WINDOW", call::DROP_WINDOW),
        ("POST", call::POST),
        ("TAKE", call::TAKE),
        ("LIVE_COUNT", call::LIVE_COUNT),
        ("LOWEST_FREE", call::LOWEST_FREE),
        ("RECEIVE", call::RECEIVE),
        ("TICK", call::TICK),
        ("READING", call::READING),
        ("STATE", call::STATE),
        ("STREAM_CLOSED", stream::CLOSED),
        ("STREAM_OPEN", stream::OPEN),
        ("STREAM_ENDED", stream::ENDED),
        ("STREAM_TERMINATED", stream::TERMINATED),
        ("RIGHT_WRITE", RIGHT_WRITE),
        ("RIGHT_READ", RIGHT_READ),
        ("OPCODE_SEND", OPCODE_SEND.into()),
        ("OPCODE_SEND_INVALIDATE", OPCODE_SEND_INVALIDATE.into()),
        ("OPCODE_SEND_SE", OPCODE_SEND_SE.into()),
        (
            "OPCODE_SEND_SE_INVALIDATE",
            OPCODE_SEND_SE_INVALIDATE.into(),
        ),
        ("REFUSED", kind::REFUSED),
        ("DONE", kind::DONE),
        ("CLOSED", kind::CLOSED),
        ("READ", kind::READ),
        ("COUNTED", kind::COUNTED),
        ("WAIT", kind::WAIT),
        ("TAKEN", kind::TAKEN),
        ("SENT", kind::SENT),
        ("SENT_INVALIDATING", kind::SENT_INVALIDATING),
        ("TERMINATED", kind::TERMINATED),
        ("ENDED", kind::ENDED),
        ("KEPT", kind::KEPT),
        ("QUIET", kind::QUIET),
        ("STEADY", kind::STEADY),
        ("FALLING", kind::FALLING),
        ("STATED", kind::STATED),
        ("NOT_WRITTEN", written::NOT_WRITTEN),
        ("WROTE", written::WROTE),
        ("NO_MORE", written::NO_MORE),
        ("STARTUP_REFUSED", startup::REFUSED),
        ("STARTUP_FIRST", startup::FIRST),
        ("STARTUP_SECOND", startup::SECOND),
        ("STARTUP_ENHANCED", startup::ENHANCED),
        ("STARTUP_WAIT", startup::WAIT),
        ("KIND_SEND", KIND_SEND),
        ("KIND_WRITE", KIND_WRITE),
        ("KIND_READ", KIND_READ),
    ] {
        let found = number_after(&header, &format!(" RNIC_{name} = "));
        assert_eq!(found, Some(number), "{name}");
    }
}

/// The fields of terms and of a startup frame, which the header names, stand one word after the other.
#[test]
fn fields_are_words() {
    assert_eq!(defined(&header(), "RNIC_DEPTH_UNSAID"), Some(DEPTH_UNSAID));
    let terms = [
        offset_of!(RnicTerms, peer),
        offset_of!(RnicTerms, ird),
        offset_of!(RnicTerms, ord),
        offset_of!(RnicTerms, kinds),
        size_of::<RnicTerms>(),
    ];
    assert_eq!(terms, [0, 8, 16, 24, 32]);
    let frame = [
        offset_of!(RnicStartup, kind),
        offset_of!(RnicStartup, total),
        offset_of!(RnicStartup, start),
        offset_of!(RnicStartup, crc),
        offset_of!(RnicStartup, declined),
        offset_of!(RnicStartup, terms),
        size_of::<RnicStartup>(),
    ];
    assert_eq!(frame, [0, 8, 16, 24, 32, 40, 72]);
}
