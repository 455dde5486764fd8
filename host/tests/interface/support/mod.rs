//! Scripts run on a device held through the C interface, line for line beside the second program.

pub mod device;
pub mod numbered;
pub mod painted;

use oracle::command::{parse, Command, Line};
use oracle::generate::nights;
use oracle::generate::prng::Prng;
use oracle::hex;
use oracle::script::Interpreter;
use oracle::state::{Device as Second, STREAMS};
use oracle::tally::Tally;
use rnic::raw::{ROOM, ROOMS};

/// A store so small that all of it is compared after each line.
const SMALL: usize = 65_536;

/// A device whose calls can be made by the commands of a script.
pub trait Calls {
    /// Makes the call of a command, with the store and the rooms lent, and gives the script's answer.
    fn call(&mut self, command: &Command, store: &mut [u8], rooms: &mut [u8]) -> String;
}

/// A device with its store, its rooms and the count of the store's bytes that it is lent.
pub struct Program<D> {
    pub device: D,
    pub store: Vec<u8>,
    pub rooms: Vec<u8>,
    lent: usize,
}

impl<D: Calls> Program<D> {
    /// Starts with a zero store of this size, and zero rooms.
    pub fn new(device: D, size: usize) -> Self {
        Program::within(device, size, vec![0; ROOMS])
    }

    /// Starts with a zero store of this size, and rooms in which there are these bytes.
    pub fn within(device: D, size: usize, rooms: Vec<u8>) -> Self {
        Program {
            device,
            store: vec![0; size],
            rooms,
            lent: 0,
        }
    }

    /// Runs one line; a comment or an empty line has no answer.
    pub fn run_line(&mut self, line: &[u8]) -> Option<String> {
        match parse(line) {
            Line::Silent => None,
            Line::Bad => Some(String::from("bad")),
            Line::Command(command) => Some(self.execute(&command)),
        }
    }

    /// Runs one command: a range past the store's size is answered `bad`.
    fn execute(&mut self, command: &Command) -> String {
        let answer = match command {
            Command::Bytes { start, length } => self
                .range(*start, *length)
                .map(|range| format!("bytes {}", hex::encode(&self.store[range]))),
            Command::Fill { start, bytes } => self.range(*start, bytes.len() as u64).map(|range| {
                self.store[range].copy_from_slice(bytes);
                String::from("done")
            }),
            _ => self.call(command),
        };
        answer.unwrap_or_else(|| String::from("bad"))
    }

    /// Makes a call of the device with the front of the store lent.
    fn call(&mut self, command: &Command) -> Option<String> {
        if let Command::Open { length, .. } = command {
            self.lent = self.store.len().min(*length as usize);
        }
        let (lent, held) = match command {
            Command::Receive { lent, .. } => (*lent, None),
            Command::Offer { lent, held, .. } => (*lent, *held),
            Command::Held(stream) if *stream >= STREAMS as u64 => return None,
            _ => (None, None),
        };
        let lent = lent.map_or(self.lent, |lent| lent as usize);
        let held = held.map_or(ROOMS, |held| held as usize);
        let (store, rooms) = (self.store.get_mut(..lent)?, self.rooms.get_mut(..held)?);
        Some(self.device.call(command, store, rooms))
    }

    /// Says whether the rooms hold the same bytes as the second program's streams.
    pub fn holds_as(&self, second: &Second) -> bool {
        let rooms = self.rooms.chunks(ROOM);
        rooms
            .zip(&second.streams)
            .all(|(room, stream)| room.starts_with(&stream.held))
    }

    /// Gives a range of the store, or nothing where it goes past the store's size.
    fn range(&self, start: u64, length: u64) -> Option<std::ops::Range<usize>> {
        let end = start.checked_add(length)?;
        (end <= self.store.len() as u64).then_some(start as usize..end as usize)
    }
}

/// Gives the stream whose room a line may write to.
fn offered(line: &[u8]) -> Option<u64> {
    match parse(line) {
        Line::Command(Command::Offer { stream, .. }) => Some(stream),
        _ => None,
    }
}

/// Says whether all rooms but a stream's have the same bytes.
pub fn same_beside(rooms: &[u8], others: &[u8], stream: Option<u64>) -> bool {
    let rooms = rooms.chunks(ROOM).zip(others.chunks(ROOM));
    (0..)
        .zip(rooms)
        .all(|(number, (room, other))| Some(number) == stream || room == other)
}

/// Gives rooms in which there is anything.
pub fn any_rooms(prng: &mut Prng) -> Vec<u8> {
    prng.bytes(ROOMS)
}

/// Gives the lines of a random night over a store of this size.
pub fn night(size: usize, seed: u64, count: u64) -> Vec<Vec<u8>> {
    let mut script = Vec::new();
    nights::write_script_over(size, seed, count, &mut script).unwrap();
    let lines = script.strip_suffix(b"\n").unwrap().split(|&b| b == b'\n');
    lines.map(<[u8]>::to_vec).collect()
}

/// Runs a random night over a store of this size on both programs, comparing each line, the store and what is held, and
/// counts. The rooms start with anything, and a line changes none but the room of the stream that it offers bytes to.
pub fn compare(device: impl Calls, size: usize, seed: u64, count: u64, tally: &mut Tally) {
    let mut second = Interpreter::with_store(size);
    let mut ours = Program::within(device, size, any_rooms(&mut Prng::new(seed)));
    for (at, line) in night(size, seed, count).iter().enumerate() {
        let rooms = ours.rooms.clone();
        let (answer, expected) = (ours.run_line(line), second.run_line(line));
        let same_store = size > SMALL || ours.store == second.store;
        let same_rooms =
            ours.holds_as(&second.device) && same_beside(&ours.rooms, &rooms, offered(line));
        assert!(
            answer == expected && same_store && same_rooms,
            "seed {seed}, line {at}: {:?} was answered {:?}, and not {:?}; the store is the same: {same_store}, the rooms: {same_rooms}",
            clip(&String::from_utf8_lossy(line)),
            answer.as_deref().map(clip),
            expected.as_deref().map(clip),
        );
        if let Some(answer) = answer {
            tally.add(line, &answer);
        }
    }
    assert!(ours.store == second.store, "seed {seed}: the store");
}

/// Gives the front of a text that may be as long as the store.
fn clip(text: &str) -> &str {
    text.get(..300).unwrap_or(text)
}
