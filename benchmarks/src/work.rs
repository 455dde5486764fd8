//! The work that is timed: receiving a scene's FPDUs, and copying their payloads alone.

use std::hint::black_box;
use std::time::{Duration, Instant};

use oracle::state::Device as Second;

use crate::measure::{measure, repeated, Times, Work};
use crate::placed::{self, Placed};
use crate::receiver::{Eight, Ours, Outcome, Receiver, Same};
use crate::scene::{Kind, Scene, FRAMES, SEND_STREAMS};

/// The times of a scene's contenders; the second program with eight tables, and with our CRC, is one where the CRC is on.
pub struct Compared {
    pub ours: Times,
    pub second: Times,
    pub copying: Times,
    pub eight: Option<Times>,
    pub same: Option<Times>,
}

/// Times the receivers and the copying alone on one scene, once the receivers have agreed on it.
pub fn compare(scene: Scene) -> Compared {
    let frames = scene.frames();
    let frames = placed::slices(&frames);
    check::<Second>(scene, &frames);
    check::<Eight>(scene, &frames);
    check::<Same>(scene, &frames);
    let mut contenders = vec![
        receiving::<Ours>(scene, &frames),
        receiving::<Second>(scene, &frames),
        copying(scene, &frames),
    ];
    if scene.crc {
        contenders.push(receiving::<Eight>(scene, &frames));
        contenders.push(receiving::<Same>(scene, &frames));
    }
    let mut times = measure(FRAMES * streams(scene), &mut contenders).into_iter();
    let mut next = || times.next().expect("a time for each contender");
    Compared {
        ours: next(),
        second: next(),
        copying: next(),
        eight: times.next(),
        same: times.next(),
    }
}

/// Gives the number of streams on which the frames are received.
fn streams(scene: Scene) -> u64 {
    match scene.kind {
        Kind::Write => 1,
        Kind::Send => SEND_STREAMS,
    }
}

/// Gives the receiving as work; the streams of Sends are opened anew between, while the clock stands.
pub fn receiving<'a, R: Receiver + 'static>(scene: Scene, frames: &'a [&[u8]]) -> Work<'a> {
    let mut device: R = scene.device();
    let mut store = Placed::zeros(placed::STORE, scene.store as usize);
    if scene.kind == Kind::Write {
        return repeated(move || receive_all(&mut device, &mut store, 0, frames));
    }
    Box::new(move |repetitions| {
        let mut took = Duration::ZERO;
        for _ in 0..repetitions {
            scene.reopen(&mut device);
            let start = Instant::now();
            for stream in 0..SEND_STREAMS {
                receive_all(&mut device, &mut store, stream, frames);
            }
            took += start.elapsed();
        }
        took
    })
}

/// Receives the frames on a stream, all of which must be taken.
fn receive_all<R: Receiver>(device: &mut R, store: &mut [u8], stream: u64, frames: &[&[u8]]) {
    let mut taken = |bytes: &[u8]| {
        let outcome = device.receive(store, stream, black_box(bytes));
        matches!(outcome, Outcome::Taken { .. })
    };
    let taken = frames.iter().filter(|bytes| taken(bytes));
    assert_eq!(taken.count(), frames.len(), "an FPDU was not taken");
    black_box(store);
}

/// Gives the copying of the payloads as work, as many as the receivers take.
fn copying<'a>(scene: Scene, frames: &'a [&[u8]]) -> Work<'a> {
    let mut store = Placed::zeros(placed::STORE, scene.store as usize);
    repeated(move || {
        let mut store = &mut store[..];
        for stream in 0..streams(scene) {
            for (number, bytes) in (0..).zip(frames) {
                let (payload, place) = black_box(scene.span(stream, number));
                let bytes = &black_box(bytes)[payload];
                store[place..place + bytes.len()].copy_from_slice(bytes);
                black_box(&mut store);
            }
        }
    })
}

/// Receives the frames once on ours and another receiver, whose answers and stores must be the same.
fn check<R: Receiver>(scene: Scene, frames: &[&[u8]]) {
    let (mut ours, mut second): (Ours, R) = (scene.device(), scene.device());
    let mut store = vec![0; scene.store as usize];
    let mut other = store.clone();
    for bytes in frames {
        let outcome = Receiver::receive(&mut ours, &mut store, 0, bytes);
        let (total, sent) = (bytes.len(), scene.kind == Kind::Send);
        assert_eq!(outcome, Outcome::Taken { total, sent });
        assert_eq!(outcome, second.receive(&mut other, 0, bytes));
    }
    assert!(store == other, "the stores differ");
}
