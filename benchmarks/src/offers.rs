//! Offers of Writes: whole, beside receive of the same FPDUs; cut before the CRC; and one byte at a time.

use std::hint::black_box;

use rnic::Rooms;
use oracle::mpa::CRC_FIELD;
use oracle::state::Device as Second;

use crate::growth::slope;
use crate::measure::{measure, repeated, Work};
use crate::placed::{self, Placed};
use crate::receive::on_off;
use crate::receiver::{Ours, Outcome, Receiver};
use crate::scene::{Kind, Scene, FRAMES};
use crate::table::{self, Aim};
use crate::work::receiving;

/// How an FPDU is offered.
#[derive(Clone, Copy, Debug, PartialEq, Eq)]
enum Cut {
    Whole,
    BeforeCrc,
    Bytes,
}

impl Cut {
    /// Gives the length of the pieces of an FPDU, of which the last may be shorter.
    fn length(self, total: usize) -> usize {
        match self {
            Cut::Whole => total,
            Cut::BeforeCrc => total - CRC_FIELD,
            Cut::Bytes => 1,
        }
    }
}

/// Writes both tables.
pub fn write() {
    println!("\n### Offers: Writes");
    let columns = [
        "offer",
        "receive",
        "offer ÷ receive",
        "aim",
        "met",
        "second program's offer",
        "offer ÷ second's",
    ];
    table::head(&["payload", "CRC", "offered"], &columns);
    for payload in [64, 2034, 8178] {
        for crc in [false, true] {
            row(Scene::of(Kind::Write, payload, crc), Cut::Whole);
        }
    }
    for payload in [2034, 8178] {
        for crc in [false, true] {
            row(Scene::of(Kind::Write, payload, crc), Cut::BeforeCrc);
        }
    }
    bytes();
}

/// Times offers of one scene beside receives of it, and writes the row.
fn row(scene: Scene, cut: Cut) {
    let frames = scene.frames();
    let frames = placed::slices(&frames);
    check(scene, &frames, cut);
    let mut contenders = [
        offering::<Ours>(scene, &frames, cut),
        receiving::<Ours>(scene, &frames),
        offering::<Second>(scene, &frames, cut),
    ];
    let times = measure(FRAMES, &mut contenders);
    let (offer, receive, second) = (&times[0], &times[1], &times[2]);
    let (name, aim) = match cut {
        Cut::Whole => ("whole", Some(1.1)),
        Cut::BeforeCrc => ("in two, cut before the CRC", None),
        Cut::Bytes => ("one byte at a time", None),
    };
    let mut cells = vec![table::grouped(scene.payload as u64)];
    cells.push(String::from(on_off(scene.crc)));
    cells.extend(table::compared(String::from(name), offer, receive));
    cells.extend(Aim(aim).cells(offer.ratio(receive)));
    cells.extend([table::times(second), table::ratio(offer, second)]);
    table::row(&cells);
}

/// Writes what a byte costs where a stream is fed one at a time, which does not grow with the FPDU's length.
fn bytes() {
    println!("\n### Offers of one byte at a time: Writes, nanoseconds a byte");
    let columns = [
        "ours, CRC off",
        "second, CRC off",
        "ours, CRC on",
        "second, CRC on",
    ];
    table::head(&["payload"], &columns);
    let mut points: [Vec<(f64, f64)>; 4] = Default::default();
    for payload in [64, 512, 2034, 8178] {
        let mut cells = vec![table::grouped(payload as u64)];
        let mut points = points.iter_mut();
        for crc in [false, true] {
            let scene = Scene::of(Kind::Write, payload, crc);
            let frames = scene.frames();
            let frames = placed::slices(&frames);
            check(scene, &frames, Cut::Bytes);
            let mut contenders = [
                offering::<Ours>(scene, &frames, Cut::Bytes),
                offering::<Second>(scene, &frames, Cut::Bytes),
            ];
            let total = frames.iter().map(|bytes| bytes.len() as u64).sum();
            for (times, points) in measure(total, &mut contenders).iter().zip(&mut points) {
                cells.push(table::times(times));
                points.push((payload as f64, times.median()));
            }
        }
        table::row(&cells);
    }
    let mut cells = vec![String::from("a byte of payload more")];
    cells.extend(points.iter().map(|points| format!("{:.5}", slope(points))));
    table::row(&cells);
}

/// Gives the offering of the frames as work, all of which must be completed.
fn offering<'a, R: Receiver + 'static>(scene: Scene, frames: &'a [&[u8]], cut: Cut) -> Work<'a> {
    let mut device: R = scene.device();
    let mut rooms = Placed::zeros(placed::ROOMS, Rooms::new().len());
    let mut store = Placed::zeros(placed::STORE, scene.store as usize);
    repeated(move || {
        let (store, rooms) = (&mut store[..], &mut rooms[..]);
        let mut completed = |bytes: &[u8]| {
            let outcome = device.offer(store, rooms, 0, black_box(bytes));
            matches!(outcome, Outcome::Completed { .. })
        };
        if cut == Cut::Whole {
            let completed = frames.iter().filter(|bytes| completed(bytes));
            assert_eq!(completed.count(), frames.len(), "an FPDU was not taken");
            return;
        }
        for bytes in frames {
            let pieces = bytes.chunks(cut.length(bytes.len()));
            let completed = pieces.filter(|piece| completed(piece));
            assert_eq!(completed.count(), 1, "an FPDU was not taken once");
        }
    })
}

/// Offers the frames once to both programs, whose answers and stores must be the same, and those of receive.
fn check(scene: Scene, frames: &[&[u8]], cut: Cut) {
    let mut device: Ours = scene.device();
    let (mut second, mut whole): (Second, Ours) = (scene.device(), scene.device());
    let mut stores = [(); 3].map(|()| vec![0; scene.store as usize]);
    let [store, other, received] = &mut stores;
    let mut rooms = Rooms::new();
    for bytes in frames {
        for piece in bytes.chunks(cut.length(bytes.len())) {
            let outcome = Receiver::offer(&mut device, store, &mut rooms, 0, piece);
            assert_eq!(
                outcome,
                Receiver::offer(&mut second, other, &mut rooms, 0, piece)
            );
        }
        let outcome = Receiver::receive(&mut whole, received, 0, bytes);
        assert!(matches!(outcome, Outcome::Taken { .. }));
    }
    let same = device == whole && stores[0] == stores[1] && stores[0] == stores[2];
    assert!(same, "the devices or the stores differ");
}
