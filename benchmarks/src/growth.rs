//! What the cost of a receive grows with, and what it does not grow with.

use crate::scene::{Kind, Scene};
use crate::table;
use crate::work::{compare, Compared};

/// Writes the three tables.
pub fn write() {
    bytes();
    store();
    live();
}

/// Writes how the cost grows with the payload's bytes.
fn bytes() {
    println!("\n### Growth with the payload: Writes");
    let columns = [
        "ours, CRC off",
        "second, CRC off",
        "ours, CRC on",
        "second, CRC on",
        "eight tables, CRC on",
    ];
    table::head(&["payload"], &columns);
    let payloads = [0, 256, 512, 1024, 1536, 2034, 8178];
    let mut points: [Vec<(f64, f64)>; 5] = Default::default();
    for payload in payloads {
        let [off, on] = [false, true].map(|crc| compare(Scene::of(Kind::Write, payload, crc)));
        let off = [off.ours, off.second];
        let on = [on.ours, on.second].into_iter().chain(on.eight);
        let mut cells = vec![table::grouped(payload as u64)];
        for (times, points) in off.into_iter().chain(on).zip(&mut points) {
            cells.push(table::times(&times));
            points.push((payload as f64, times.median()));
        }
        table::row(&cells);
    }
    let mut cells = vec![String::from("a byte more")];
    cells.extend(points.iter().map(|points| format!("{:.3}", slope(points))));
    table::row(&cells);
}

/// Gives the slope of the straight line nearest to some points, by least squares.
pub fn slope(points: &[(f64, f64)]) -> f64 {
    let count = points.len() as f64;
    let (x, y) = points
        .iter()
        .fold((0.0, 0.0), |(x, y), p| (x + p.0, y + p.1));
    let (x, y) = (x / count, y / count);
    let above: f64 = points.iter().map(|p| (p.0 - x) * (p.1 - y)).sum();
    let below: f64 = points.iter().map(|p| (p.0 - x) * (p.0 - x)).sum();
    above / below
}

/// Writes the cost over stores of four sizes.
fn store() {
    println!("\n### The store's size: Writes of 512 bytes, CRC off");
    table::head(&["store"], &["ours", "second program"]);
    for store in [4096, 65_536, 1 << 20, 1 << 24] {
        let scene = Scene::of(Kind::Write, 512, false);
        row(table::grouped(store), compare(Scene { store, ..scene }));
    }
}

/// Writes the cost with few and with all windows and streams live.
fn live() {
    println!("\n### What is live: Writes of 512 bytes, CRC off");
    let words = ["windows, streams (8 buffers each)"];
    table::head(&words, &["ours", "second program"]);
    for (windows, streams) in [(1, 1), (16, 4), (64, 16)] {
        let scene = Scene::of(Kind::Write, 512, false);
        let live = Scene {
            windows,
            streams,
            ..scene
        };
        row(format!("{windows}, {streams}"), compare(live));
    }
}

/// Writes a row of a scene's two receivers.
fn row(name: String, compared: Compared) {
    let times = [compared.ours, compared.second];
    let [ours, second] = times.map(|times| table::times(&times));
    table::row(&[name, ours, second]);
}
