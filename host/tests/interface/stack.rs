//! The stack that each entry takes, which the header states: measured over random nights, each call on a stack of its own.
//!
//! `cargo test --release stack -- --nocapture` writes the table.

use std::collections::BTreeMap;

use oracle::command::Command;
use rnic::raw::{call, kind, rnic_c_call, rnic_c_held, rnic_c_offer, rnic_c_receive};
use rnic::raw::{rnic_c_agree_answer, rnic_c_agree_settle};
use rnic::raw::{rnic_c_crc32c, rnic_c_crc32c_join, rnic_c_crc32c_update};
use rnic::raw::{rnic_c_fpdu_read, rnic_c_fpdu_write, rnic_c_message_next, rnic_c_message_send};
use rnic::raw::{rnic_c_message_write, FpduWords, Rnic, RnicMessage, Words, Written, ROOM};
use rnic::raw::{rnic_c_startup_read, rnic_c_startup_write, RnicStartup, RnicTerms};

use crate::header::{defined, header};
use crate::support::numbered::{encode, text};
use crate::support::painted::Painted;
use crate::support::{night, Calls, Program};

/// The entries, by which a row of the table has its columns.
const ENTRIES: [&str; 3] = ["rnic_c_call", "rnic_c_receive", "rnic_c_offer"];

/// Where in an FPDU its opcode stands.
const CONTROL: usize = 3;

/// A device whose calls are measured: by their number, or receive by its own entry; an offer has no number.
struct Measured {
    state: Box<Rnic>,
    stack: Painted,
    alone: bool,
    depths: BTreeMap<String, usize>,
}

impl Measured {
    /// Starts with the state of all zeros.
    fn new(alone: bool) -> Self {
        Measured {
            state: Box::new(Rnic::ZERO),
            stack: Painted::new(),
            alone,
            depths: BTreeMap::new(),
        }
    }

    /// Keeps how deep a call went, where none of its name went deeper.
    fn keep(&mut self, name: String, depth: usize) {
        let most = self.depths.entry(name).or_default();
        *most = depth.max(*most);
    }

    /// Gives how many bytes a stream holds.
    fn held(&mut self, stream: u64) -> usize {
        let words = [&raw const *self.state as usize, stream as usize, 0, 0, 0, 0];
        // SAFETY: the arguments are a pointer to a device that is held, and a number.
        let depth = unsafe { self.stack.call(rnic_c_held as *const (), words) };
        self.keep(String::from("held"), depth);
        // SAFETY: as above.
        unsafe { rnic_c_held(&*self.state, stream) as usize }
    }

    /// Offers bytes.
    fn offer(&mut self, store: &mut [u8], rooms: &mut [u8], stream: u64, bytes: &[u8]) -> Words {
        let control = self.control(rooms, stream, bytes);
        let mut answer: Words = [0; 8];
        let words = [
            &raw mut *self.state as usize,
            store.as_mut_ptr() as usize,
            store.len(),
            rooms.as_mut_ptr() as usize,
            rooms.len(),
            stream as usize,
            bytes.as_ptr() as usize,
            bytes.len(),
            &raw mut answer as usize,
        ];
        // SAFETY: these are the arguments of the entry in their order, and all that they point at is held for the call.
        let depth = unsafe { self.stack.call(rnic_c_offer as *const (), words) };
        self.keep(
            refused(format!("offer{}", received(control, answer[0])), &answer),
            depth,
        );
        answer
    }

    /// Gives the byte of an FPDU that its opcode stands in: of those held, or else of those offered.
    fn control(&mut self, rooms: &[u8], stream: u64, bytes: &[u8]) -> Option<u8> {
        let held = self.held(stream);
        if held > CONTROL {
            return rooms.get(stream as usize * ROOM + CONTROL).copied();
        }
        bytes.get(CONTROL - held).copied()
    }
}

impl Calls for Measured {
    fn call(&mut self, command: &Command, store: &mut [u8], rooms: &mut [u8]) -> String {
        if let Command::Offer { stream, bytes, .. } = command {
            return text(command, self.offer(store, rooms, *stream, bytes));
        }
        if let Command::Held(stream) = command {
            return format!("held {}", self.held(*stream));
        }
        let Some((number, arguments, bytes)) = encode(command) else {
            return String::from("no call of the device");
        };
        let mut answer: Words = [0; 8];
        let device = &raw mut *self.state as usize;
        let (lent, lent_length) = (store.as_mut_ptr() as usize, store.len());
        let (read, read_length) = (bytes.as_ptr() as usize, bytes.len());
        let written = &raw mut answer as usize;
        let (entry, rest) = if self.alone && number == call::RECEIVE {
            let stream = arguments[0] as usize;
            let rest = [stream, read, read_length, written, 0];
            (rnic_c_receive as *const (), rest)
        } else {
            let given = &raw const arguments as usize;
            let rest = [number as usize, given, read, read_length, written];
            (rnic_c_call as *const (), rest)
        };
        let [a, b, c, d, e] = rest;
        let words = [device, lent, lent_length, a, b, c, d, e];
        // SAFETY: these are the arguments of the entry in their order, and all that they point at is held for the call.
        let depth = unsafe { self.stack.call(entry, words) };
        self.keep(label(number, bytes, &answer), depth);
        text(command, answer)
    }
}

/// Names a call by its number and by what it was answered.
fn label(number: u64, bytes: &[u8], answer: &Words) -> String {
    let name = match number {
        call::OPEN => "open",
        call::OPEN_STREAM => "open_stream",
        call::CLOSE_STREAM => "close_stream",
        call::REGISTER => "register",
        call::DROP_WINDOW => "drop_window",
        call::POST => "post",
        call::TAKE => "take",
        call::LIVE_COUNT => "live_count",
        call::LOWEST_FREE => "lowest_free",
        call::TICK => "tick",
        call::READING => "reading",
        call::STATE => "state",
        _ => "receive",
    };
    let behind = match number {
        call::RECEIVE => received(bytes.get(CONTROL).copied(), answer[0]),
        _ => "",
    };
    refused(format!("{name}{behind}"), answer)
}

/// Adds to a name that the call was refused, where it was.
fn refused(name: String, answer: &Words) -> String {
    match answer[0] {
        kind::REFUSED => format!("{name}, refused"),
        _ => name,
    }
}

/// Names what was received by the answer's kind and, where that does not tell it, the opcode.
fn received(control: Option<u8>, kind: u64) -> &'static str {
    match (kind, control.map(|control| control & 15)) {
        (kind::WAIT, _) => ": Wait",
        (kind::KEPT, _) => ": all kept",
        (kind::TAKEN, Some(0)) => ": Write",
        (kind::TAKEN, Some(1)) => ": Read Request",
        (kind::TAKEN, _) => ": Send that goes on",
        (kind::SENT, _) => ": Send",
        (kind::SENT_INVALIDATING, _) => ": Send with Invalidate",
        (kind::TERMINATED, _) => ": Terminate",
        (kind::ENDED, _) => ": the peer's bytes refused",
        _ => "",
    }
}

/// Gives the most bytes of stack that each call takes over some nights.
fn depths(alone: bool) -> BTreeMap<String, usize> {
    let mut measured = Measured::new(alone);
    for seed in 1..=20 {
        let mut program = Program::new(measured, 4096);
        for line in night(4096, seed, 2000) {
            program.run_line(&line);
        }
        measured = program.device;
    }
    measured.depths
}

/// Gives the most bytes of stack that the CRC takes.
fn crc_depth() -> usize {
    let bytes = [7; 4096];
    let mut stack = Painted::new();
    let depth = |length: usize| {
        let words = [bytes.as_ptr() as usize, length, 0, 0, 0, 0, 0, 0];
        // SAFETY: the arguments are a pointer and a length within the bytes.
        unsafe { stack.call(rnic_c_crc32c as *const (), words) }
    };
    [0, 1, 63, 4096].map(depth).into_iter().fold(0, usize::max)
}

/// Gives the most bytes of stack that the CRC in pieces takes.
fn update_depth() -> usize {
    let bytes = [7; 4096];
    let mut stack = Painted::new();
    let depth = |length: usize| {
        let words = [7, bytes.as_ptr() as usize, length, 0, 0, 0, 0, 0];
        // SAFETY: the arguments are a number, a pointer and a length within the bytes.
        unsafe { stack.call(rnic_c_crc32c_update as *const (), words) }
    };
    [0, 1, 63, 4096].map(depth).into_iter().fold(0, usize::max)
}

/// Gives the most bytes of stack that joined CRCs take.
fn join_depth() -> usize {
    let mut stack = Painted::new();
    let depth = |length: u32| {
        let words = [7, 9, length as usize, 0, 0, 0, 0, 0];
        // SAFETY: the arguments are numbers.
        unsafe { stack.call(rnic_c_crc32c_join as *const (), words) }
    };
    let lengths = [0, 1, 2, 1 << 31, u32::MAX - 1, u32::MAX];
    lengths.map(depth).into_iter().fold(0, usize::max)
}

/// Gives the most bytes of stack that beginning a message takes, refused and not.
fn begin_depth() -> usize {
    let mut message = RnicMessage { words: [0; 9] };
    let mut stack = Painted::new();
    let state = &raw mut message as usize;
    let writes = [19, 18, 8193].map(|limit| [state, limit, 7, 8, 9, 0, 0, 0]);
    let sends = [3, 4, 7].map(|opcode| [state, 40, opcode, 1, 9, 5, 0, 0]);
    let entries = [
        (rnic_c_message_write as *const (), writes),
        (rnic_c_message_send as *const (), sends),
    ];
    let mut most = 0;
    for (entry, calls) in entries {
        for words in calls {
            // SAFETY: the arguments are a pointer to a message that is held, and numbers.
            most = most.max(unsafe { stack.call(entry, words) });
        }
    }
    most
}

/// Gives the most bytes of stack that writing the segments of a message takes, and framing one.
fn next_depths() -> [usize; 2] {
    let bytes = [7u8; 20_000];
    let (mut out, mut frame) = ([0u8; ROOM - 8], [0u8; ROOM]);
    let mut answer: Written = [0; 2];
    let mut stack = Painted::new();
    let mut most = [0; 2];
    for (limit, opcode) in [(19, 0), (8192, 0), (33, 3), (8192, 6)] {
        let mut message = RnicMessage { words: [0; 9] };
        let state = &raw mut message as usize;
        // SAFETY: the pointers are those of values that are held for the calls, with their lengths.
        unsafe {
            match opcode {
                0 => rnic_c_message_write(&mut message, limit, 7, 8, 20_000),
                _ => rnic_c_message_send(&mut message, limit, opcode, 1, 9, 20_000),
            };
            let (given, written) = (bytes.as_ptr() as usize, &raw mut answer as usize);
            for room in [0, 8192, 8192, 8192, 8192] {
                let to = out.as_mut_ptr() as usize;
                let words = [state, given, 20_000, to, room, written, 0, 0];
                most[0] = stack
                    .call(rnic_c_message_next as *const (), words)
                    .max(most[0]);
                let (length, end) = (out.len().min(limit as usize), frame.as_mut_ptr() as usize);
                let words = [to, length, end, 8 + room, written, 0, 0, 0];
                most[1] = stack
                    .call(rnic_c_fpdu_write as *const (), words)
                    .max(most[1]);
            }
        }
    }
    most
}

/// Gives the most bytes of stack that reading an FPDU takes: whole, cut short and damaged, with the CRC off and on.
fn fpdu_read_depth() -> usize {
    let (ulpdu, mut frame) = ([7u8; 8192], [0u8; 8200]);
    let mut answer: FpduWords = [0; 4];
    let mut stack = Painted::new();
    let mut most = 0;
    for length in [0, 1, 64, 2034, 8192] {
        let total = rnic::write_fpdu(&ulpdu[..length], &mut frame).expect("it fits");
        for (crc, given, flip) in [
            (0, total, 0),
            (1, total, 0),
            (1, total - 1, 0),
            (1, total, 1),
        ] {
            frame[2] ^= flip;
            let words = [
                crc,
                frame.as_ptr() as usize,
                given,
                &raw mut answer as usize,
                0,
                0,
                0,
                0,
            ];
            // SAFETY: the pointers are those of values that are held for the call, with their lengths.
            most = unsafe { stack.call(rnic_c_fpdu_read as *const (), words) }.max(most);
            frame[2] ^= flip;
        }
    }
    most
}

/// Gives the most bytes of stack that reading a startup frame takes, and writing one: of each kind, refused and not.
fn startup_depths() -> [usize; 2] {
    let data = [7u8; 513];
    let mut out = [0u8; 600];
    let mut answer: Written = [0; 2];
    let mut stack = Painted::new();
    let mut most = [0; 2];
    for (kind, length) in [0, 1, 2, 3, 4]
        .iter()
        .flat_map(|kind| [(*kind, 0), (*kind, 508), (*kind, 513)])
    {
        let terms = RnicTerms {
            peer: 1,
            ird: 128,
            ord: 128,
            kinds: 7,
        };
        let frame = RnicStartup {
            kind,
            total: 0,
            start: 0,
            crc: 1,
            declined: 1,
            terms,
        };
        let mut found = frame;
        let (given, told) = (&raw const frame as usize, &raw mut found as usize);
        let (to, written) = (out.as_mut_ptr() as usize, &raw mut answer as usize);
        for (reply, room) in [(1, 600), (0, 600), (1, 10)] {
            let words = [
                reply,
                given,
                data.as_ptr() as usize,
                length,
                to,
                room,
                written,
                0,
            ];
            // SAFETY: these are the arguments of the entries in their order, and all that they point at is held for the calls.
            most[1] = most[1].max(unsafe { stack.call(rnic_c_startup_write as *const (), words) });
        }
        for bytes in [0, 19, 20, 24, 600] {
            for reply in [0, 1] {
                let words = [reply, to, bytes, told, 0, 0];
                // SAFETY: as above.
                most[0] =
                    most[0].max(unsafe { stack.call(rnic_c_startup_read as *const (), words) });
            }
        }
    }
    most
}

/// Gives the most bytes of stack that answering terms and settling takes, refused and not.
fn agree_depth() -> usize {
    let mut stack = Painted::new();
    let mut most = 0;
    let numbers = [0, 1, 7, 0x3FFF, 0x4000];
    for (ird, ord) in numbers
        .iter()
        .flat_map(|ird| numbers.map(|ord| (*ird, ord)))
    {
        for (peer, kinds) in [(0, 0), (0, 7), (1, 1), (1, 2), (1, 4), (1, 8)] {
            let own = RnicTerms {
                peer,
                ird: 7,
                ord: 7,
                kinds: 3,
            };
            let other = RnicTerms {
                peer,
                ird,
                ord,
                kinds,
            };
            let (mut reply, mut kept) = (own, own);
            let (mine, theirs) = (&raw const own as usize, &raw const other as usize);
            let (said, keeps) = (&raw mut reply as usize, &raw mut kept as usize);
            let answer = [mine, theirs, said, keeps, 0, 0];
            let settle = [mine, theirs, keeps, 0, 0, 0];
            // SAFETY: the arguments are pointers to terms that are held.
            unsafe {
                most = most.max(stack.call(rnic_c_agree_answer as *const (), answer));
                most = most.max(stack.call(rnic_c_agree_settle as *const (), settle));
            }
        }
    }
    most
}

#[test]
fn stack_of_the_entries() {
    let columns = [false, true].map(depths);
    println!(
        "| bytes of stack | {} |\n|---|---:|---:|---:|",
        ENTRIES.join(" | ")
    );
    let most = |column: usize, of: &str| {
        let of = columns[column]
            .iter()
            .filter(|(name, _)| name.starts_with(of));
        of.map(|(_, depth)| *depth).max()
    };
    let called = columns[0]
        .iter()
        .filter(|(name, _)| !name.starts_with("offer") && *name != "held");
    for (name, depth) in called.clone() {
        let alone = columns[1].get(name).filter(|_| name.starts_with("receive"));
        let alone = alone.map_or(String::from("–"), usize::to_string);
        println!("| {name} | {depth} | {alone} | – |");
    }
    for (name, depth) in &columns[0] {
        if name.starts_with("offer") {
            println!("| {name} | – | – | {depth} |");
        }
    }
    println!("\nrnic_c_held: {:?}", most(0, "held"));
    println!("rnic_c_crc32c: {}", crc_depth());
    println!("rnic_c_crc32c_update: {}", update_depth());
    println!("rnic_c_crc32c_join: {}", join_depth());
    println!(
        "rnic_c_message_write, rnic_c_message_send: {}",
        begin_depth()
    );
    let [next, fpdu] = next_depths();
    println!("rnic_c_message_next: {next}\nrnic_c_fpdu_write: {fpdu}");
    let [read, write] = startup_depths();
    println!("rnic_c_startup_read: {read}\nrnic_c_startup_write: {write}");
    println!(
        "rnic_c_agree_answer, rnic_c_agree_settle: {}",
        agree_depth()
    );
    assert_eq!(columns[0].len(), 43, "every call and answer is met");
    let most = [
        ("RNIC_C_CALL_STACK", called.map(|(_, depth)| *depth).max()),
        ("RNIC_C_RECEIVE_STACK", most(1, "receive")),
        ("RNIC_C_OFFER_STACK", most(0, "offer")),
        ("RNIC_C_HELD_STACK", most(0, "held")),
        ("RNIC_C_CRC32C_STACK", Some(crc_depth())),
        ("RNIC_C_CRC32C_UPDATE_STACK", Some(update_depth())),
        ("RNIC_C_CRC32C_JOIN_STACK", Some(join_depth())),
        ("RNIC_C_MESSAGE_STACK", Some(begin_depth())),
        ("RNIC_C_MESSAGE_NEXT_STACK", Some(next)),
        ("RNIC_C_FPDU_WRITE_STACK", Some(fpdu)),
        ("RNIC_C_FPDU_READ_STACK", Some(fpdu_read_depth())),
        ("RNIC_C_STARTUP_READ_STACK", Some(read)),
        ("RNIC_C_STARTUP_WRITE_STACK", Some(write)),
        ("RNIC_C_AGREE_STACK", Some(agree_depth())),
    ];
    for (name, depth) in most {
        let stated = defined(&header(), name);
        assert!(
            depth.map(|depth| depth as u64) <= stated,
            "{name}: {depth:?}, and not {stated:?}"
        );
    }
}
