//! However a stream's bytes are cut: the events in order, the domain's part of the store and its end state are those of the
//! uncut run.

use oracle::generate::prng::Prng;
use oracle::generate::segments::{fpdu, kind};
use oracle::mpa::{MAX_FPDU, MAX_ULPDU};
use oracle::offer::Offered;
use oracle::receive::{Answer, Event};
use oracle::refusal::{Fault, Refusal};
use oracle::state::{Device, Part, Stream, Window, HELD};

/// Bytes of the store, of which domain 1 has the second quarter.
const STORE: usize = 131_072;
/// Bytes that the payload of a longest segment fits into.
const LONGEST: u64 = MAX_ULPDU as u64;
/// The stream whose bytes are cut, of domain 1, and one of domain 0.
const STREAM: u64 = 4;
const OTHER: u64 = 0;

/// A device with its store.
#[derive(Clone)]
struct Bench {
    device: Device,
    store: Vec<u8>,
}

/// What the stream's bytes bring about: the totals and events, and how they end.
#[derive(Debug, Default, PartialEq)]
struct Seen {
    taken: Vec<(usize, Event)>,
    fault: Option<Fault>,
}

impl Bench {
    /// Opens the stream with eight buffers and windows of each right, the CRC on or off. The first window and, now and then,
    /// the first buffer have room for the longest segments.
    fn new(prng: &mut Prng) -> Self {
        let mut device = Device::default();
        let quarter = STORE as u64 / 4;
        let parts = [0, 1, 2, 3].map(|domain| Part {
            start: domain * quarter,
            end: (domain + 1) * quarter,
        });
        device.open(STORE as u64, parts).unwrap();
        device.open_stream(STREAM, prng.percent(50)).unwrap();
        device.open_stream(OTHER, false).unwrap();
        device
            .register(16, 7, prng.draw() >> 1, LONGEST, quarter, 1)
            .unwrap();
        for slot in 1..6 {
            let (place, rights) = (quarter + LONGEST + slot * 300, slot % 3 + 1);
            let base = prng.draw() >> 1;
            device
                .register(16 + slot, 7, base, 300, place, rights)
                .unwrap();
        }
        let first = prng.pick(&[280, 280, LONGEST]);
        device.post(STREAM, quarter + 12_000, first).unwrap();
        for at in 1..8 {
            let start = quarter + 12_000 + LONGEST + at * 280;
            device.post(STREAM, start, 280).unwrap();
        }
        let store = prng.bytes(STORE);
        Bench { device, store }
    }

    /// Gives what belongs to domain 1: its streams, windows and part.
    fn own(&self) -> (&[Stream], &[Window], &[u8]) {
        let part = &self.store[STORE / 4..STORE / 2];
        (
            &self.device.streams[4..8],
            &self.device.windows[16..32],
            part,
        )
    }

    /// Offers bytes to the stream.
    fn offer(&mut self, bytes: &[u8]) -> Offered {
        self.device
            .offer(&mut self.store, HELD as u64, STREAM, bytes)
    }

    /// Receives all of the bytes, one FPDU after the other, and gives what is left of them.
    fn uncut<'a>(&mut self, mut bytes: &'a [u8]) -> (Seen, &'a [u8]) {
        let mut seen = Seen::default();
        loop {
            match self.device.receive(&mut self.store, STREAM, bytes) {
                Answer::Taken { total, event } => {
                    seen.taken.push((total, event));
                    bytes = &bytes[total..];
                }
                Answer::Wait(_) => return (seen, bytes),
                Answer::Fault(fault) => {
                    seen.fault = Some(fault);
                    return (seen, &[]);
                }
                Answer::Refused(refusal) => {
                    assert_eq!(refusal, Refusal::Ended);
                    return (seen, &[]);
                }
            }
        }
    }

    /// Offers the bytes in pieces, what is not taken of one again, with calls for another domain between.
    fn cut(&mut self, prng: &mut Prng, bytes: &[u8], mode: u64) -> Seen {
        let mut seen = Seen::default();
        let mut rest = bytes;
        loop {
            let (mut piece, behind) = rest.split_at(piece_length(prng, rest, mode));
            while self.offer_again(&mut piece, &mut seen) {}
            if prng.percent(10) {
                let length = prng.index(6);
                let junk = prng.bytes(length);
                self.device
                    .offer(&mut self.store, HELD as u64, OTHER, &junk);
            }
            rest = behind;
            if rest.is_empty() {
                return seen;
            }
        }
    }

    /// Offers a piece once, and says whether some of it is to be offered again.
    fn offer_again(&mut self, piece: &mut &[u8], seen: &mut Seen) -> bool {
        let over =
            seen.fault.is_some() || matches!(seen.taken.last(), Some((_, Event::Terminate(_))));
        match self.offer(piece) {
            Offered::Held { took } => {
                assert!(!over && took == piece.len());
                return false;
            }
            Offered::Taken { took, total, event } => {
                assert!(!over && took >= 1 && took <= piece.len());
                seen.taken.push((total, event));
                *piece = &piece[took..];
                assert_eq!(self.device.held(STREAM), Some(0));
                return !piece.is_empty();
            }
            Offered::Fault(fault) => {
                assert!(!over);
                seen.fault = Some(fault);
            }
            Offered::Refused(refusal) => assert!(over && refusal == Refusal::Ended),
        }
        assert_eq!(self.device.held(STREAM), Some(0));
        false
    }
}

/// Picks the length of the next piece: all, one byte, up to just before the end, or as it chances, which may be nothing.
fn piece_length(prng: &mut Prng, rest: &[u8], mode: u64) -> usize {
    let most = rest.len();
    match mode {
        0 => most,
        1 => most.min(1),
        2 => prng.index(most.min(9) + 1),
        3 => prng
            .pick(&[most, most.saturating_sub(4), 1, 20, 24, 52])
            .min(most),
        _ => prng.index(most.min(700) + 1),
    }
}

/// Makes some FPDUs that follow each other, now and then one with a fault, the last perhaps not whole.
fn stream_bytes(prng: &mut Prng, bench: &Bench) -> Vec<u8> {
    let mut tried = bench.clone();
    let faulty = prng.pick(&[0, 2, 15]);
    let mut bytes = Vec::new();
    for _ in 0..prng.between(1, 12) {
        let kind = kind(prng);
        let frame = fpdu(prng, &tried.device, STREAM as usize, kind, faulty);
        tried.device.receive(&mut tried.store, STREAM, &frame);
        bytes.extend(frame);
    }
    if prng.percent(30) {
        bytes.truncate(prng.index(bytes.len() + 1));
    }
    bytes
}

#[test]
fn cut_anywhere_is_as_uncut() {
    let (mut faults, mut held, mut ended, mut longest) = (0, 0, 0, 0);
    for seed in 0..1500 {
        let mut prng = Prng::new(seed);
        let bench = Bench::new(&mut prng);
        let bytes = stream_bytes(&mut prng, &bench);
        let mut whole = bench.clone();
        let (seen, left) = whole.uncut(&bytes);
        // The uncut run holds nothing; what it waits for is what the others hold.
        whole.device.streams[STREAM as usize].held = left.to_vec();
        faults += u32::from(seen.fault.is_some());
        held += u32::from(!left.is_empty());
        longest += seen
            .taken
            .iter()
            .filter(|(total, _)| *total == MAX_FPDU)
            .count();
        ended += u32::from(matches!(seen.taken.last(), Some((_, Event::Terminate(_)))));
        for mode in 0..5 {
            let mut pieces = bench.clone();
            assert_eq!(
                pieces.cut(&mut prng, &bytes, mode),
                seen,
                "seed {seed}, mode {mode}"
            );
            assert!(pieces.own() == whole.own(), "seed {seed}, mode {mode}");
        }
    }
    println!("{faults} with a fault, {ended} terminated, {held} with bytes held at the end");
    println!("{longest} longest FPDUs");
    assert!(faults > 100 && ended > 100 && held > 100 && longest > 20);
}
