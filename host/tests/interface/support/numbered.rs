//! The entries themselves, as a device for scripts, every call but an offer by its number: numbers in, words out.

use oracle::command::Command;
use rnic::raw::{call, kind, rnic_c_call, rnic_c_held, rnic_c_offer, rnic_c_receive};
use rnic::raw::{Arguments, Words, DEVICE_WORDS};

use super::Calls;

/// Words that are watched on either side of the device.
const GUARD: usize = 64;
/// What the watched words hold.
const PATTERN: u64 = 0xA5A5_5A5A_C3C3_3C3C;

/// A device of which nothing but the entries is used, as little aligned as is allowed, between words that no call changes.
pub struct Numbered {
    words: Vec<u64>,
    at: usize,
    alone: bool,
}

impl Numbered {
    /// Starts with the device of all zeros, of which every call is made by its number.
    pub fn new() -> Self {
        Numbered::holding(&[0; DEVICE_WORDS])
    }

    /// Starts with a device of these words.
    pub fn holding(device: &[u64; DEVICE_WORDS]) -> Self {
        let mut words = vec![PATTERN; 2 * GUARD + DEVICE_WORDS + 1];
        let odd = (words.as_ptr() as usize / size_of::<u64>() + GUARD) % 2;
        let at = GUARD + 1 - odd;
        words[at..at + DEVICE_WORDS].copy_from_slice(device);
        Numbered {
            words,
            at,
            alone: false,
        }
    }

    /// Gives the same device with receive called by its own entry.
    pub fn alone(self) -> Self {
        let alone = true;
        Numbered { alone, ..self }
    }

    /// Gives the device's words.
    pub fn device(&self) -> &[u64] {
        &self.words[self.at..self.at + DEVICE_WORDS]
    }

    /// Makes a call by its number, or receive by itself; no word beside the device may change.
    pub fn words(
        &mut self,
        store: &mut [u8],
        number: u64,
        arguments: &Arguments,
        bytes: &[u8],
    ) -> Words {
        // Each word is to be written, so none starts as 0.
        let mut answer = [0xA5A5; 8];
        let device = self.words[self.at..].as_mut_ptr().cast();
        let (lent, lent_length) = (store.as_mut_ptr(), store.len());
        let (read, read_length) = (bytes.as_ptr(), bytes.len());
        // SAFETY: pointers and lengths of slices and references that are held for the call.
        unsafe {
            if self.alone && number == call::RECEIVE {
                let stream = arguments[0];
                rnic_c_receive(
                    device,
                    lent,
                    lent_length,
                    stream,
                    read,
                    read_length,
                    &mut answer,
                );
            } else {
                rnic_c_call(
                    device,
                    lent,
                    lent_length,
                    number,
                    arguments,
                    read,
                    read_length,
                    &mut answer,
                );
            }
        }
        assert!(self.is_alone(), "{number} {arguments:?}");
        answer
    }

    /// Offers bytes to a stream; no word beside the device may change.
    pub fn offer(
        &mut self,
        store: &mut [u8],
        rooms: &mut [u8],
        stream: u64,
        bytes: &[u8],
    ) -> Words {
        let mut answer = [0xA5A5; 8];
        let device = self.words[self.at..].as_mut_ptr().cast();
        // SAFETY: as in `words`.
        unsafe {
            rnic_c_offer(
                device,
                store.as_mut_ptr(),
                store.len(),
                rooms.as_mut_ptr(),
                rooms.len(),
                stream,
                bytes.as_ptr(),
                bytes.len(),
                &mut answer,
            );
        }
        assert!(self.is_alone(), "{stream} {bytes:?}");
        answer
    }

    /// Gives how many bytes a stream holds.
    pub fn held(&self, stream: u64) -> u32 {
        let device = self.words[self.at..].as_ptr().cast();
        // SAFETY: the pointer is that of words that are held for the call, as many as a device has.
        unsafe { rnic_c_held(device, stream) }
    }

    /// Says whether the words beside the device are as they were.
    fn is_alone(&self) -> bool {
        let (front, rest) = self.words.split_at(self.at);
        let mut beside = front.iter().chain(&rest[DEVICE_WORDS..]);
        beside.all(|word| *word == PATTERN)
    }
}

impl Calls for Numbered {
    fn call(&mut self, command: &Command, store: &mut [u8], rooms: &mut [u8]) -> String {
        match (command, encode(command)) {
            (Command::Offer { stream, bytes, .. }, _) => {
                text(command, self.offer(store, rooms, *stream, bytes))
            }
            (Command::Held(stream), _) => format!("held {}", self.held(*stream)),
            (_, Some((number, arguments, bytes))) => {
                text(command, self.words(store, number, &arguments, bytes))
            }
            (_, None) => String::from("no call of the device"),
        }
    }
}

/// Gives a call's number, arguments and bytes.
pub fn encode(command: &Command) -> Option<(u64, Arguments, &[u8])> {
    let (number, given) = match command {
        Command::Open { length, parts } => {
            let ends = parts.iter().flat_map(|part| [part.start, part.end]);
            (0, std::iter::once(*length).chain(ends).collect())
        }
        Command::Stream { stream, crc } => (1, vec![*stream, u64::from(*crc)]),
        Command::Close(stream) => (2, vec![*stream]),
        Command::Register {
            window,
            key,
            base,
            length,
            place,
            rights,
        } => (3, vec![*window, *key, *base, *length, *place, *rights]),
        Command::Drop(window) => (4, vec![*window]),
        Command::Post {
            stream,
            start,
            length,
        } => (5, vec![*stream, *start, *length]),
        Command::Take(stream) => (6, vec![*stream]),
        Command::Live(domain) => (7, vec![*domain]),
        Command::Free(domain) => (8, vec![*domain]),
        Command::Receive { stream, .. } => (9, vec![*stream]),
        Command::Tick(domain) => (10, vec![*domain]),
        Command::Reading(domain) => (11, vec![*domain]),
        Command::State(stream) => (12, vec![*stream]),
        _ => return None,
    };
    let mut arguments = [0; 9];
    arguments[..given.len()].copy_from_slice(&given);
    let bytes: &[u8] = match command {
        Command::Receive { bytes, .. } => bytes,
        _ => &[],
    };
    Some((number, arguments, bytes))
}

/// Writes an answer's words as the script's line.
pub fn text(command: &Command, words: Words) -> String {
    match (words, command) {
        ([kind::KEPT, 0, 0, 0, 0, 0, took, 0], Command::Offer { .. }) => format!("took {took}"),
        ([kind::TAKEN..=kind::TERMINATED, ..], Command::Offer { .. }) => {
            let [kind, total, a, b, c, d, took, last] = words;
            let taken = line(command, [kind, total, a, b, c, d, 0, last]);
            format!("took {took} {taken}")
        }
        _ => line(command, words),
    }
}

/// Writes the words that are no more than a kind and its numbers.
fn line(command: &Command, words: Words) -> String {
    match (words, command) {
        ([0, n, 0, 0, 0, 0, 0, 0], _) => format!("refused {n}"),
        ([1, 0, 0, 0, 0, 0, 0, 0], Command::Open { .. }) => String::from("opened"),
        ([1, 0, 0, 0, 0, 0, 0, 0], _) => String::from("done"),
        ([2, buffers, reads, 0, 0, 0, 0, 0], _) => format!("closed {buffers} {reads}"),
        ([3, a, b, c, d, e, 0, 0], _) => format!("read {a} {b} {c} {d} {e}"),
        ([4, n, 0, 0, 0, 0, 0, 0], Command::Live(_)) => format!("live {n}"),
        ([4, n, 0, 0, 0, 0, 0, 0], _) => format!("free {n}"),
        ([5, n, 0, 0, 0, 0, 0, 0], _) => format!("wait {n}"),
        ([6, total, 0, 0, 0, 0, 0, 0], _) => format!("taken {total}"),
        ([7, total, a, b, c, 0, 0, 0], _) => format!("taken {total} send {a} {b} {c}"),
        ([8, total, a, b, c, stag, 0, 0], _) => {
            format!("taken {total} send {a} {b} {c} stag {stag}")
        }
        ([9, total, a, b, c, 0, 0, 0], _) => format!("taken {total} terminate {a} {b} {c}"),
        ([10, n, a, b, c, 0, 0, 0], _) => format!("refused {n} {a}/{b}/{c:02X}"),
        ([12, 0, 0, 0, 0, 0, 0, 0], _) => String::from("quiet"),
        ([13, level, 0, 0, 0, 0, 0, 0], _) => format!("steady {level:016x}"),
        ([14, level, peak, 0, 0, 0, 0, 0], _) => format!("falling {level:016x} {peak:016x}"),
        ([15, ..], _) => state(words),
        (words, _) => format!("{words:?}"),
    }
}

/// Writes the words that tell a stream's state: which it is, buffers, reads, and what ended it.
fn state(words: Words) -> String {
    match words {
        [15, 0, 0, 0, 0, 0, 0, 0] => String::from("state closed"),
        [15, 1, buffers, reads, 0, 0, 0, 0] => format!("state open {buffers} {reads}"),
        [15, 2, buffers, reads, n, a, b, c] => {
            format!("state ended {n} {a}/{b}/{c:02X} {buffers} {reads}")
        }
        [15, 3, buffers, reads, 0, 0, 0, 0] => format!("state terminated {buffers} {reads}"),
        words => format!("{words:?}"),
    }
}
