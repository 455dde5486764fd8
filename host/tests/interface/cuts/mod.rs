//! However a stream's bytes are cut into offers: the events in order, the store, the device's words and the bytes held are those
//! of the uncut night, through the C interface and through the second program, whatever the rooms hold at first.

mod maker;
mod received;
mod run;

use oracle::generate::prng::Prng;
use oracle::state::{stream_domain, STREAMS};
use rnic::raw::{kind, ROOM};

use crate::support::numbered::Numbered;
use crate::support::{any_rooms, same_beside, Program};
use maker::{Maker, Step};
use received::Received;
use run::{Cut, Run};

/// Bytes of the store, of which each domain has a quarter.
const STORE: usize = 131_072;
/// Bytes of a domain's part.
const PART: usize = STORE / 4;

/// What came of the nights, counted.
#[derive(Debug, Default)]
struct Met {
    taken: usize,
    faults: usize,
    terminates: usize,
    held: usize,
    refused: u64,
}

impl Met {
    /// Adds the events of a night.
    fn add(&mut self, events: &[Vec<String>; 4]) {
        let count = |word: &str| {
            let all = events.iter().flatten();
            all.filter(|event| event.contains(word)).count()
        };
        self.taken += count("taken");
        self.faults += count("refused");
        self.terminates += count("terminate");
    }
}

#[test]
fn nights_cut_anywhere() {
    let mut met = Met::default();
    for seed in 0..60 {
        let mut prng = Prng::new(1 << 32 | seed);
        let mut whole = Run::new(&mut prng);
        let mut received = Received::new();
        let cuts = [Cut::Bytes, Cut::Small, Cut::Fields, Cut::Anywhere];
        let mut runs = cuts.map(|cut| (cut, Run::new(&mut prng)));
        for (at, step) in Maker::steps(seed).iter().enumerate() {
            whole.step(step, &mut prng, Cut::Whole);
            received.step(step);
            assert!(whole.agrees(), "seed {seed}, step {at}");
            assert!(received.is_as(&whole), "seed {seed}, step {at}: received");
            for (cut, run) in &mut runs {
                run.step(step, &mut prng, *cut);
                assert!(run.agrees(), "seed {seed}, step {at}, {cut:?}");
                assert!(run.is_as(&whole), "seed {seed}, step {at}, {cut:?}: uncut");
            }
            let streams = whole.second.device.streams.iter();
            met.held += streams.filter(|stream| !stream.held.is_empty()).count();
        }
        met.add(&whole.events);
        met.refused += runs.iter().map(|(_, run)| run.refused).sum::<u64>();
    }
    println!("{met:?}");
    assert!(
        met.taken > 5000 && met.faults > 500 && met.terminates > 100,
        "{met:?}"
    );
    assert!(met.held > 5000 && met.refused > 1000, "{met:?}");
}

/// A device of which every offer is watched.
struct Watched {
    program: Program<Numbered>,
    kinds: [usize; kind::KEPT as usize + 1],
}

impl Watched {
    /// Offers bytes to a stream and gives how many were taken, nothing where they are refused: no byte of another domain's
    /// part changes, none of another stream's room, and no other stream holds more or less.
    fn offer(&mut self, stream: usize, bytes: &[u8]) -> Option<usize> {
        let Program {
            device,
            store,
            rooms,
            ..
        } = &mut self.program;
        let number = stream as u64;
        let held = |device: &Numbered| -> Vec<u32> {
            let others = (0..STREAMS as u64).filter(|other| *other != number);
            others.map(|other| device.held(other)).collect()
        };
        let before = (store.clone(), rooms.clone(), held(device));
        let answer = device.offer(store, rooms, number, bytes);
        let own = stream_domain(stream);
        let mut parts = (0..).zip(store.chunks(PART).zip(before.0.chunks(PART)));
        assert!(parts.all(|(domain, (part, old))| domain == own || part == old));
        assert!(same_beside(rooms, &before.1, Some(number)));
        assert_eq!(held(device), before.2);
        self.kinds[answer[0] as usize] += 1;
        let refused = [kind::REFUSED, kind::ENDED].contains(&answer[0]);
        (!refused).then_some(answer[6] as usize)
    }
}

/// An offer changes nothing of another domain, and of the rooms its own stream's alone, whatever it offers; other calls change
/// none of the rooms.
#[test]
fn an_offer_stays_in_its_own_room_and_part() {
    let mut kinds = [0; kind::KEPT as usize + 1];
    for seed in 100..130 {
        let mut prng = Prng::new(seed);
        let rooms = any_rooms(&mut prng);
        let program = Program::within(Numbered::new(), STORE, rooms);
        let mut watched = Watched { program, kinds };
        for step in Maker::steps(seed) {
            let came = match step {
                Step::Host(line) => {
                    let rooms = watched.program.rooms.clone();
                    watched.program.run_line(line.as_bytes());
                    assert!(watched.program.rooms == rooms, "seed {seed}: {line}");
                    continue;
                }
                Step::Came(came) => came,
            };
            for (stream, mut bytes) in came {
                if prng.percent(10) {
                    let length = prng.index(3 * ROOM);
                    bytes = prng.bytes(length);
                }
                let mut rest = &bytes[..];
                while !rest.is_empty() {
                    let length = Cut::Anywhere.piece(&mut prng, rest.len());
                    match watched.offer(stream, &rest[..length]) {
                        Some(taken) => rest = &rest[taken..],
                        None => break,
                    }
                }
            }
        }
        kinds = watched.kinds;
    }
    let offered = kind::TAKEN as usize..=kind::KEPT as usize;
    assert!(
        kinds[0] >= 10 && kinds[offered].iter().all(|count| *count >= 10),
        "{kinds:?}"
    );
}
