//! A device is its words: so many and no more, any that there are, and after an opening those that the calls make.
//!
//! Every call here is made through `Numbered`, which watches the words beside the device.

use oracle::generate::draft::{frame, Draft, Sink};
use oracle::generate::prng::Prng;
use rnic::raw::{call, kind, stream, Arguments, Words, DEVICE_WORDS, ROOM};
use rnic::Device;

use crate::support::numbered::Numbered;
use crate::support::{any_rooms, night, Program};

/// The longest store, whose length fills its field further than any other.
const STORE: usize = 1 << 24;
/// The store of the nights.
const SMALL: usize = 4096;
/// The opening of the nights.
const OPENING: &[u8] = b"open 4096 0 1024 1024 2048 2048 3072 3072 4096";

/// A device whose every field is to be worked, with its store.
struct Worked {
    device: Numbered,
    store: Vec<u8>,
}

impl Worked {
    /// Makes a call, which must not be refused.
    fn call(&mut self, number: u64, given: &[u64]) {
        let answer = self.device.words(&mut [], number, &arguments(given), &[]);
        assert_eq!(answer[0], kind::DONE, "{number} {given:?}");
    }

    /// Receives a segment, which must be taken or end the stream.
    fn receive(&mut self, stream: u64, draft: &Draft) {
        let (store, bytes) = (&mut self.store, frame(&draft.ulpdu(), 0));
        let arguments = arguments(&[stream]);
        let answer = self.device.words(store, call::RECEIVE, &arguments, &bytes);
        assert!(answer[0] >= kind::TAKEN, "{stream}: {answer:?}");
    }

    /// Fills a stream's queues and starts a Send.
    fn work_stream(&mut self, stream: u64) {
        self.call(call::OPEN_STREAM, &[stream, 1]);
        for buffer in 0..8 {
            let start = place(stream / 4, 16 + stream % 4 * 8 + buffer);
            self.call(call::POST, &[stream, start, 257]);
        }
        let window = (stream / 4) * 16;
        let mut read = Draft::new(false, 1);
        (read.qn, read.stag, read.to) = (1, window as u32 * 256 + 255, u64::MAX - 257);
        for number in 1..=8 {
            let (stag, to, size) = (u32::MAX, u64::MAX, 257);
            read.sink = Some(Sink { stag, to, size });
            read.msn = number;
            self.receive(stream, &read);
        }
        let mut send = Draft::new(false, 6);
        (send.last, send.payload) = (false, vec![1; 257]);
        self.receive(stream, &send);
    }

    /// Works every field of the device: all windows, streams, buffers and reads, the streams' ends, and the gauges.
    fn work(&mut self) {
        let quarter = STORE as u64 / 4;
        let mut opening = vec![STORE as u64];
        opening.extend((0..4).flat_map(|domain| [domain * quarter, (domain + 1) * quarter]));
        self.call(call::OPEN, &opening);
        for window in 0..64 {
            let place = place(window / 16, window % 16);
            let window = [window, 255, u64::MAX - 257, 257, place, 3];
            self.call(call::REGISTER, &window);
        }
        (0..16).for_each(|stream| self.work_stream(stream));
        let mut unexpected = Draft::new(false, 6);
        unexpected.qn = u32::MAX;
        (0..16).for_each(|stream| self.receive(stream, &unexpected));
        (0..4).for_each(|domain| self.call(call::TICK, &[domain]));
    }
}

/// Gives the place of a domain's entry of a number, 257 bytes before the one of the number before: no two share a byte.
fn place(domain: u64, number: u64) -> u64 {
    (domain + 1) * (STORE as u64 / 4) - (number + 1) * 257
}

/// Gives a call's arguments, those left out being 0.
fn arguments(given: &[u64]) -> Arguments {
    let mut arguments = [0; 9];
    arguments[..given.len()].copy_from_slice(given);
    arguments
}

/// Gives words that no call made.
fn garbage(prng: &mut Prng) -> [u64; DEVICE_WORDS] {
    std::array::from_fn(|_| prng.draw())
}

/// A device that is worked in every field uses every word, by either entry of receive.
#[test]
fn every_word_is_used() {
    for device in [Numbered::new(), Numbered::new().alone()] {
        let store = vec![0; STORE];
        let mut worked = Worked { device, store };
        worked.work();
        let unused = worked.device.device().iter().position(|&word| word == 0);
        assert_eq!(unused, None);
    }
}

/// A refused opening leaves zeros, whatever the device held.
#[test]
fn a_refused_opening_leaves_zeros() {
    let mut prng = Prng::new(1);
    for given in [&[0][..], &[u64::MAX], &[100, 0, 101]] {
        let mut device = Numbered::holding(&garbage(&mut prng));
        let answer = device.words(&mut [], call::OPEN, &arguments(given), &[]);
        assert_eq!(answer[0], kind::REFUSED, "{given:?}");
        let left = device.device().iter().position(|&word| word != 0);
        assert_eq!(left, None, "{given:?}");
    }
}

/// From an opening on, the words turn on the calls alone: devices that held other words, lent rooms with other bytes, have the
/// same after each call.
#[test]
fn the_calls_determine_every_word() {
    let mut prng = Prng::new(2);
    for seed in 1..11 {
        let mut programs = [(); 2].map(|()| {
            let device = Numbered::holding(&garbage(&mut prng));
            Program::within(device, SMALL, any_rooms(&mut prng))
        });
        let lines = night(SMALL, seed, 1000);
        for line in std::iter::once(OPENING.to_vec()).chain(lines) {
            let [answer, other] = programs.each_mut().map(|program| program.run_line(&line));
            let [device, second] = programs.each_ref().map(|program| program.device.device());
            let line = String::from_utf8_lossy(&line);
            assert!(
                answer == other && device == second,
                "seed {seed}: {line:.300}"
            );
        }
    }
}

/// A device goes on from its words as it would have: saved in the middle of a night and read back into another place.
#[test]
fn a_device_is_moved_as_words() {
    let lines = night(SMALL, 11, 2000);
    let (mut stays, mut moves) = (
        Program::new(Numbered::new(), SMALL),
        Program::new(Numbered::new().alone(), SMALL),
    );
    for line in lines {
        let saved = moves
            .device
            .device()
            .try_into()
            .expect("the device's words");
        moves.device = Numbered::holding(&saved).alone();
        assert_eq!(stays.run_line(&line), moves.run_line(&line));
        assert!(stays.device.device() == moves.device.device());
    }
}

/// The words say how many bytes each stream holds and nothing else of them: however they came, and whatever they are. A stream
/// that holds none again has the words that it had.
#[test]
fn held_bytes_are_counted_in_the_words() {
    let mut prng = Prng::new(4);
    let mut devices = [Numbered::new(), Numbered::new()];
    let mut rooms = [(); 2].map(|()| any_rooms(&mut prng));
    let mut store = vec![0; SMALL];
    let opening = [4096, 0, 1024, 1024, 2048, 2048, 3072, 3072, 4096];
    for device in &mut devices {
        device.words(&mut [], call::OPEN, &opening, &[]);
        for stream in 0..16 {
            device.words(&mut [], call::OPEN_STREAM, &arguments(&[stream]), &[]);
        }
    }
    let before = devices[0].device().to_vec();
    for stream in 0..16 {
        // The longest FPDU but for a byte, of which the length field alone is looked at.
        let (mut bytes, mut other) = (prng.bytes(ROOM - 1), prng.bytes(ROOM - 1));
        bytes[..2].copy_from_slice(&[0x20, 0]);
        other[..2].copy_from_slice(&[0x20, 0]);
        let answer = devices[0].offer(&mut store, &mut rooms[0], stream, &bytes);
        let taken = ROOM as u64 - 1;
        assert_eq!(answer, [kind::KEPT, 0, 0, 0, 0, 0, taken, 0]);
        assert!(devices[0].device() != devices[1].device());
        for piece in other.chunks(1 + stream as usize * 17) {
            devices[1].offer(&mut store, &mut rooms[1], stream, piece);
        }
        assert!(devices[0].device() == devices[1].device(), "{stream}");
        let first = stream as usize * ROOM;
        assert!(rooms[0][first..first + ROOM - 1] == bytes);
        assert!(rooms[1][first..first + ROOM - 1] == other);
    }
    for device in &mut devices {
        for stream in 0..16 {
            assert_eq!(device.held(stream), ROOM as u32 - 1);
            device.words(&mut [], call::CLOSE_STREAM, &arguments(&[stream]), &[]);
            assert_eq!(device.held(stream), 0);
            device.words(&mut [], call::OPEN_STREAM, &arguments(&[stream]), &[]);
        }
        assert!(device.device() == before);
    }
}

/// Devices of the crate are equal where they had the same calls, and others are not.
#[test]
fn equal_devices() {
    let run = |lines: &[Vec<u8>]| {
        let mut program = Program::new(Device::new(), SMALL);
        for line in lines {
            program.run_line(line);
        }
        program.device
    };
    let mut lines = vec![OPENING.to_vec()];
    lines.extend(night(SMALL, 12, 500));
    let mut device = run(&lines);
    assert!(device == run(&lines) && device == device.clone());
    assert!(device != Device::new());
    assert!(device.open(0, [0..0, 0..0, 0..0, 0..0]).is_err());
    assert!(device == Device::new());
}

/// Says whether words are an answer: a kind that there is, a local refusal's number where it is one, finite floats, and one of
/// the four states of a stream.
fn is_answer(words: &Words) -> bool {
    match words[0] {
        kind::REFUSED => matches!(words[1], 1..=11 | 16 | 19),
        kind::STEADY | kind::FALLING => words[1..3]
            .iter()
            .all(|bits| f64::from_bits(*bits).is_finite()),
        kind::STATED => words[1] <= stream::TERMINATED,
        other => other <= kind::QUIET,
    }
}

/// Every call answers whatever words the device holds.
#[test]
fn any_words_are_a_device() {
    let mut prng = Prng::new(3);
    let (mut store, mut rooms) = (vec![0; SMALL], any_rooms(&mut prng));
    let mut write = Draft::new(true, 0);
    write.payload = vec![1; 16];
    for _ in 0..2000 {
        let mut words = garbage(&mut prng);
        // Half of them have the store's length, so that receive is not refused for that alone.
        if prng.percent(50) {
            words[0] = SMALL as u64;
        }
        for mut device in [Numbered::holding(&words), Numbered::holding(&words).alone()] {
            for number in [1, 2, 3, 4, 5, 6, 7, 8, 9, 9, 11, 10, 11, 12, 13] {
                let given = std::array::from_fn(|_| prng.below(70));
                (write.tagged, write.opcode) = (prng.percent(50), prng.below(8) as u8);
                (write.stag, write.to) = (prng.below(1 << 14) as u32, prng.draw());
                let bytes = frame(&write.ulpdu(), 0);
                let answer = device.words(&mut store, number, &given, &bytes);
                assert!(is_answer(&answer), "{number}: {answer:?}");
                let length = prng.index(bytes.len() + 1);
                let (stream, bytes) = (given[0] % 20, &bytes[..length]);
                let answer = device.offer(&mut store, &mut rooms, stream, bytes);
                assert!(is_answer(&answer), "offer: {answer:?}");
                assert!(answer[6] <= length as u64, "offer: {answer:?}");
                assert!(device.held(stream + 16) == 0, "{stream}");
            }
        }
    }
}
