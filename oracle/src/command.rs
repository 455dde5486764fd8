//! The lines of a script, taken apart into commands.

use crate::agree::Own;
use crate::hex;
use crate::startup::Role;
use crate::startup2::Establishment;
use crate::state::{Part, DOMAINS};
use crate::words::{bit, crc, number, on_off, parts, role};

/// The longest line, its newline not counted.
pub const MAX_LINE: usize = 65_536;

/// What a line is.
#[derive(Clone, Debug, PartialEq, Eq)]
pub enum Line {
    Silent,
    Bad,
    Command(Command),
}

/// One command with its values.
#[derive(Clone, Debug, PartialEq, Eq)]
pub enum Command {
    Open {
        length: u64,
        parts: [Part; DOMAINS],
    },
    Stream {
        stream: u64,
        crc: bool,
    },
    Close(u64),
    State(u64),
    Register {
        window: u64,
        key: u64,
        base: u64,
        length: u64,
        place: u64,
        rights: u64,
    },
    Drop(u64),
    Post {
        stream: u64,
        start: u64,
        length: u64,
    },
    Receive {
        stream: u64,
        bytes: Vec<u8>,
        lent: Option<u64>,
    },
    Offer {
        stream: u64,
        bytes: Vec<u8>,
        lent: Option<u64>,
        held: Option<u64>,
    },
    Held(u64),
    Take(u64),
    Live(u64),
    Free(u64),
    Tick(u64),
    Reading(u64),
    Bytes {
        start: u64,
        length: u64,
    },
    Fill {
        start: u64,
        bytes: Vec<u8>,
    },
    Fpdu {
        ulpdu: Vec<u8>,
        room: u64,
    },
    Unframe {
        crc: bool,
        bytes: Vec<u8>,
    },
    Startup {
        role: Role,
        crc: bool,
        reject: bool,
        private_data: Vec<u8>,
        room: u64,
    },
    Unstartup {
        role: Role,
        bytes: Vec<u8>,
    },
    Startup2 {
        role: Role,
        crc: bool,
        reject: bool,
        establishment: Option<Establishment>,
        private_data: Vec<u8>,
        room: u64,
    },
    Unstartup2 {
        role: Role,
        bytes: Vec<u8>,
    },
    Agree {
        own: Own,
        request: Establishment,
    },
    Crc {
        before: Option<u32>,
        bytes: Vec<u8>,
    },
    Join {
        first: u32,
        second: u32,
        length: u32,
    },
    MessageWrite {
        limit: u64,
        stag: u64,
        to: u64,
        bytes: Vec<u8>,
    },
    MessageSend {
        limit: u64,
        opcode: u64,
        msn: u64,
        stag: u64,
        bytes: Vec<u8>,
    },
    Segment {
        room: u64,
    },
}

/// Reads one line without its newline.
pub fn parse(line: &[u8]) -> Line {
    if line.len() > MAX_LINE {
        return Line::Bad;
    }
    if line.first() == Some(&b'#') {
        return Line::Silent;
    }
    let words: Vec<&[u8]> = line
        .split(|&byte| byte == b' ')
        .filter(|word| !word.is_empty())
        .collect();
    if words.is_empty() {
        return Line::Silent;
    }
    device_command(&words)
        .or_else(|| offer_command(&words))
        .or_else(|| store_command(&words))
        .or_else(|| frame_command(&words))
        .or_else(|| startup2_command(&words))
        .or_else(|| crc_command(&words))
        .or_else(|| message_command(&words))
        .map_or(Line::Bad, Line::Command)
}

/// Reads the commands that are calls of the device.
fn device_command(words: &[&[u8]]) -> Option<Command> {
    Some(match *words {
        [b"open", length, ref ends @ ..] => Command::Open {
            length: number(length)?,
            parts: parts(ends)?,
        },
        [b"stream", stream, crc] => Command::Stream {
            stream: number(stream)?,
            crc: on_off(crc)?,
        },
        [b"close", stream] => Command::Close(number(stream)?),
        [b"state", stream] => Command::State(number(stream)?),
        [b"register", window, key, base, length, place, rights] => Command::Register {
            window: number(window)?,
            key: number(key)?,
            base: number(base)?,
            length: number(length)?,
            place: number(place)?,
            rights: number(rights)?,
        },
        [b"drop", window] => Command::Drop(number(window)?),
        [b"post", stream, start, length] => Command::Post {
            stream: number(stream)?,
            start: number(start)?,
            length: number(length)?,
        },
        [b"receive", stream, bytes] => Command::Receive {
            stream: number(stream)?,
            bytes: hex::decode(bytes)?,
            lent: None,
        },
        [b"receive", stream, bytes, lent] => Command::Receive {
            stream: number(stream)?,
            bytes: hex::decode(bytes)?,
            lent: Some(number(lent)?),
        },
        [b"take", stream] => Command::Take(number(stream)?),
        [b"live", domain] => Command::Live(number(domain)?),
        [b"free", domain] => Command::Free(number(domain)?),
        [b"tick", domain] => Command::Tick(number(domain)?),
        [b"reading", domain] => Command::Reading(number(domain)?),
        _ => return None,
    })
}

/// Reads the commands on bytes that TCP cuts.
fn offer_command(words: &[&[u8]]) -> Option<Command> {
    let [word, stream, ref rest @ ..] = *words else {
        return None;
    };
    let (bytes, lent, held) = match (word, rest) {
        (b"held", []) => return Some(Command::Held(number(stream)?)),
        (b"offer", &[bytes]) => (bytes, None, None),
        (b"offer", &[bytes, lent]) => (bytes, Some(number(lent)?), None),
        (b"offer", &[bytes, lent, held]) => (bytes, Some(number(lent)?), Some(number(held)?)),
        _ => return None,
    };
    Some(Command::Offer {
        stream: number(stream)?,
        bytes: hex::decode(bytes)?,
        lent,
        held,
    })
}

/// Reads the commands that show or set the store's bytes.
fn store_command(words: &[&[u8]]) -> Option<Command> {
    Some(match *words {
        [b"bytes", start, length] => Command::Bytes {
            start: number(start)?,
            length: number(length)?,
        },
        [b"fill", start, bytes] => Command::Fill {
            start: number(start)?,
            bytes: hex::decode(bytes)?,
        },
        _ => return None,
    })
}

/// Reads the commands that write and read frames without state.
fn frame_command(words: &[&[u8]]) -> Option<Command> {
    Some(match *words {
        [b"fpdu", ulpdu, room] => Command::Fpdu {
            ulpdu: hex::decode(ulpdu)?,
            room: number(room)?,
        },
        [b"unframe", crc, bytes] => Command::Unframe {
            crc: on_off(crc)?,
            bytes: hex::decode(bytes)?,
        },
        [b"startup", role_word, crc, reject, private_data, room] => Command::Startup {
            role: role(role_word)?,
            crc: bit(crc)?,
            reject: bit(reject)?,
            private_data: hex::decode(private_data)?,
            room: number(room)?,
        },
        [b"unstartup", role_word, bytes] => Command::Unstartup {
            role: role(role_word)?,
            bytes: hex::decode(bytes)?,
        },
        _ => return None,
    })
}

/// Reads the commands on startup frames of revision 2.
fn startup2_command(words: &[&[u8]]) -> Option<Command> {
    Some(match *words {
        [b"startup2", role_word, crc, reject, ref fields @ .., private_data, room] => {
            Command::Startup2 {
                role: role(role_word)?,
                crc: bit(crc)?,
                reject: bit(reject)?,
                establishment: match fields {
                    [] => None,
                    _ => Some(establishment(fields)?),
                },
                private_data: hex::decode(private_data)?,
                room: number(room)?,
            }
        }
        [b"unstartup2", role_word, bytes] => Command::Unstartup2 {
            role: role(role_word)?,
            bytes: hex::decode(bytes)?,
        },
        [b"agree", ird, ord, kinds, ref fields @ ..] => Command::Agree {
            own: Own {
                ird: number(ird)?,
                ord: number(ord)?,
                kinds: number(kinds)?,
            },
            request: establishment(fields)?,
        },
        _ => return None,
    })
}

/// Reads A, IRD, ORD and KINDS.
fn establishment(words: &[&[u8]]) -> Option<Establishment> {
    let [peer_to_peer, ird, ord, kinds] = *words else {
        return None;
    };
    Some(Establishment {
        peer_to_peer: bit(peer_to_peer)?,
        ird: number(ird)?,
        ord: number(ord)?,
        kinds: number(kinds)?,
    })
}

/// Reads the commands on CRCs.
fn crc_command(words: &[&[u8]]) -> Option<Command> {
    Some(match *words {
        [b"crc", bytes] => Command::Crc {
            before: None,
            bytes: hex::decode(bytes)?,
        },
        [b"crc", before, bytes] => Command::Crc {
            before: Some(crc(before)?),
            bytes: hex::decode(bytes)?,
        },
        [b"join", first, second, length] => Command::Join {
            first: crc(first)?,
            second: crc(second)?,
            length: number(length)?.try_into().ok()?,
        },
        _ => return None,
    })
}

/// Reads the commands that write messages.
fn message_command(words: &[&[u8]]) -> Option<Command> {
    Some(match *words {
        [b"message", b"write", limit, stag, to, bytes] => Command::MessageWrite {
            limit: number(limit)?,
            stag: number(stag)?,
            to: number(to)?,
            bytes: hex::decode(bytes)?,
        },
        [b"message", b"send", limit, opcode, msn, stag, bytes] => Command::MessageSend {
            limit: number(limit)?,
            opcode: number(opcode)?,
            msn: number(msn)?,
            stag: number(stag)?,
            bytes: hex::decode(bytes)?,
        },
        [b"segment", room] => Command::Segment {
            room: number(room)?,
        },
        _ => return None,
    })
}
