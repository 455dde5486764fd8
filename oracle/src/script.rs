//! Running a script: each command's answer as a line of text.

use std::io::{self, BufRead, Write};

use crate::agree::respond;
use crate::command::{parse, Command, Line};
use crate::crc::crc32c_bitwise;
use crate::hex;
use crate::mpa::{read_fpdu, write_fpdu, Frame};
use crate::pieces::{carry_on, join};
use crate::refusal::Refusal;
use crate::sender::Message;
use crate::startup::{read_startup, write_startup};
use crate::startup2::{read_startup2, write_startup2};
use crate::state::{Device, HELD};
use crate::text::{agreed_text, startup2_text, startup_text, state_text};
use crate::text::{answer_text, bad, crc_text, done, offered_text, read_text, refused};

/// Bytes of the program's store.
pub const STORE: usize = 1_048_576;

/// The most bytes of an output slice.
const MAX_ROOM: u64 = 65_536;

/// A device with the program's store, the count of bytes that it lends, and the message begun last.
pub struct Interpreter {
    pub device: Device,
    pub store: Vec<u8>,
    lent: usize,
    message: Option<Message>,
}

impl Default for Interpreter {
    /// Starts with a store of the program's size.
    fn default() -> Self {
        Interpreter::with_store(STORE)
    }
}

impl Interpreter {
    /// Starts with a zero store of this size and the box that a refused opening leaves.
    pub fn with_store(size: usize) -> Self {
        Interpreter {
            device: Device::default(),
            store: vec![0; size],
            lent: 0,
            message: None,
        }
    }

    /// Runs one line without its newline; a comment or an empty line has no answer.
    pub fn run_line(&mut self, line: &[u8]) -> Option<String> {
        match parse(line) {
            Line::Silent => None,
            Line::Bad => Some(bad()),
            Line::Command(command) => Some(match self.execute(command) {
                Ok(answer) => answer,
                Err(refusal) => refused(refusal),
            }),
        }
    }

    /// Runs one command.
    fn execute(&mut self, command: Command) -> Result<String, Refusal> {
        let device = &mut self.device;
        Ok(match command {
            Command::Open { length, parts } => {
                self.lent = length.min(self.store.len() as u64) as usize;
                device.open(length, parts)?;
                String::from("opened")
            }
            Command::Stream { stream, crc } => done(device.open_stream(stream, crc))?,
            Command::Close(stream) => {
                let (buffers, reads) = device.close_stream(stream)?;
                format!("closed {buffers} {reads}")
            }
            Command::State(stream) => {
                let (condition, waiting) = device.state(stream)?;
                state_text(condition, waiting)
            }
            Command::Register {
                window,
                key,
                base,
                length,
                place,
                rights,
            } => done(device.register(window, key, base, length, place, rights))?,
            Command::Drop(window) => done(device.drop_window(window))?,
            Command::Post {
                stream,
                start,
                length,
            } => done(device.post(stream, start, length))?,
            Command::Receive {
                stream,
                bytes,
                lent,
            } => self.receive(stream, &bytes, lent),
            Command::Offer {
                stream,
                bytes,
                lent,
                held,
            } => self.offer(stream, &bytes, lent, held),
            Command::Held(stream) => match device.held(stream) {
                Some(count) => format!("held {count}"),
                None => bad(),
            },
            Command::Take(stream) => read_text(device.take_read(stream)?),
            Command::Live(domain) => format!("live {}", device.live(domain)?),
            Command::Free(domain) => format!("free {}", device.free(domain)?),
            Command::Tick(domain) => done(device.tick(domain))?,
            Command::Reading(domain) => device.reading(domain)?.to_string(),
            Command::Bytes { start, length } => self.show(start, length),
            Command::Fill { start, bytes } => self.fill(start, &bytes),
            Command::MessageWrite {
                limit,
                stag,
                to,
                bytes,
            } => self.begin(Message::write(limit, stag, to, bytes))?,
            Command::MessageSend {
                limit,
                opcode,
                msn,
                stag,
                bytes,
            } => self.begin(Message::send(limit, opcode, msn, stag, bytes))?,
            Command::Segment { room } => self.segment(room)?,
            stateless => return frame(stateless),
        })
    }

    /// Receives with the store's front lent.
    fn receive(&mut self, stream: u64, bytes: &[u8], lent: Option<u64>) -> String {
        let lent = lent.unwrap_or(self.lent as u64);
        if lent > self.store.len() as u64 {
            return bad();
        }
        let store = &mut self.store[..lent as usize];
        answer_text(self.device.receive(store, stream, bytes))
    }

    /// Offers with the store's front lent, and the front of the second slice.
    fn offer(&mut self, stream: u64, bytes: &[u8], lent: Option<u64>, held: Option<u64>) -> String {
        let lent = lent.unwrap_or(self.lent as u64);
        let held = held.unwrap_or(HELD as u64);
        if lent > self.store.len() as u64 || held > HELD as u64 {
            return bad();
        }
        let store = &mut self.store[..lent as usize];
        offered_text(self.device.offer(store, held, stream, bytes))
    }

    /// Keeps a message that was begun; a refused one leaves the one before.
    fn begin(&mut self, begun: Result<Message, Refusal>) -> Result<String, Refusal> {
        self.message = Some(begun?);
        Ok(String::from("done"))
    }

    /// Writes the next segment of the message begun last.
    fn segment(&mut self, room: u64) -> Result<String, Refusal> {
        let mut out = vec![0; room.min(MAX_ROOM) as usize];
        let next = self.message.as_mut().map(|message| message.next(&mut out));
        Ok(match next.transpose()?.flatten() {
            Some(length) => format!("wrote {length} {}", hex::encode(&out[..length])),
            None => String::from("end"),
        })
    }

    /// Gives the length of the segment that is next, 0 where there is none.
    pub(crate) fn next_segment(&self) -> usize {
        let next = self.message.as_ref().and_then(Message::next_length);
        next.unwrap_or(0)
    }

    /// Shows bytes of the store.
    fn show(&self, start: u64, length: u64) -> String {
        match store_range(&self.store, start, length) {
            Some(range) => format!("bytes {}", hex::encode(&self.store[range])),
            None => bad(),
        }
    }

    /// Puts bytes into the store.
    fn fill(&mut self, start: u64, bytes: &[u8]) -> String {
        match store_range(&self.store, start, bytes.len() as u64) {
            Some(range) => {
                self.store[range].copy_from_slice(bytes);
                String::from("done")
            }
            None => bad(),
        }
    }
}

/// Runs a command that has no state.
fn frame(command: Command) -> Result<String, Refusal> {
    Ok(match command {
        Command::Fpdu { ulpdu, room } => wrote(room, |out| write_fpdu(&ulpdu, out))?,
        Command::Unframe { crc, bytes } => match read_fpdu(crc, &bytes) {
            Frame::Wait(total) => format!("wait {total}"),
            Frame::Whole { total, ulpdu } => format!("ulpdu {total} {}", hex::encode(ulpdu)),
            Frame::Fault(fault) => format!("refused {}", fault.number),
        },
        Command::Startup {
            role,
            crc,
            reject,
            private_data,
            room,
        } => wrote(room, |out| {
            write_startup(role, crc, reject, &private_data, out)
        })?,
        Command::Unstartup { role, bytes } => startup_text(read_startup(role, &bytes)),
        Command::Startup2 {
            role,
            crc,
            reject,
            establishment,
            private_data,
            room,
        } => wrote(room, |out| {
            write_startup2(role, crc, reject, establishment, &private_data, out)
        })?,
        Command::Unstartup2 { role, bytes } => startup2_text(read_startup2(role, &bytes)),
        Command::Agree { own, request } => agreed_text(respond(own, request)?),
        Command::Crc {
            before: None,
            bytes,
        } => crc_text(crc32c_bitwise(&bytes)),
        Command::Crc {
            before: Some(crc),
            bytes,
        } => crc_text(carry_on(crc, &bytes)),
        Command::Join {
            first,
            second,
            length,
        } => crc_text(join(first, second, length)),
        _ => bad(),
    })
}

/// Lets a writer fill a slice of `room` bytes and shows what it wrote.
fn wrote(
    room: u64,
    write: impl FnOnce(&mut [u8]) -> Result<usize, Refusal>,
) -> Result<String, Refusal> {
    let mut out = vec![0; room.min(MAX_ROOM) as usize];
    let total = write(&mut out)?;
    Ok(format!("wrote {total} {}", hex::encode(&out[..total])))
}

/// Gives a range of the store, or nothing where it goes past the store's size.
fn store_range(store: &[u8], start: u64, length: u64) -> Option<std::ops::Range<usize>> {
    let end = start.checked_add(length)?;
    (end <= store.len() as u64).then_some(start as usize..end as usize)
}

/// Runs a whole script; `watch` is shown each line with its answer.
pub fn run(
    mut input: impl BufRead,
    mut output: impl Write,
    mut watch: impl FnMut(&[u8], &str),
) -> io::Result<()> {
    let mut interpreter = Interpreter::default();
    let mut line = Vec::new();
    while input.read_until(b'\n', &mut line)? > 0 {
        if line.last() == Some(&b'\n') {
            line.pop();
        }
        if let Some(answer) = interpreter.run_line(&line) {
            writeln!(output, "{answer}")?;
            watch(&line, &answer);
        }
        line.clear();
    }
    output.flush()
}
