//! Receive: Writes and Sends, with the CRC on and off.

use crate::measure::Times;
use crate::scene::{Kind, Scene};
use crate::table::{self, Aim};
use crate::work::compare;

/// The payloads, of which a Write's last is the longest of one segment.
const PAYLOADS: [(Kind, &[usize]); 2] = [
    (Kind::Write, &[0, 64, 512, 2034, 8178]),
    (Kind::Send, &[0, 64, 512, 2030]),
];

/// Writes the table.
pub fn write() {
    println!("\n### Receive");
    let columns = [
        "ours",
        "second program",
        "ours ÷ second",
        "aim",
        "met",
        "eight tables",
        "ours ÷ eight",
        "our CRC",
        "ours ÷ our CRC",
        "aim",
        "met",
        "memcpy",
    ];
    table::head(&["message", "payload", "CRC"], &columns);
    for (kind, payloads) in PAYLOADS {
        for crc in [false, true] {
            for payload in payloads {
                row(Scene::of(kind, *payload, crc));
            }
        }
    }
}

/// Gives the aim for a scene beside the second program; that of a Send does not count its post.
fn aim(scene: Scene) -> Aim {
    Aim(match (scene.kind, scene.payload, scene.crc) {
        (Kind::Write, 64 | 2034, false) => Some(1.1),
        (Kind::Write, 2034, true) => Some(1.0 / 3.0),
        (Kind::Write, 8178, false) => Some(SAME_CRC),
        (Kind::Send, 64, false) => Some(2.0),
        _ => None,
    })
}

/// The aim for the longest Write, beside the second program with the same CRC.
const SAME_CRC: f64 = 1.2;

/// Gives the cells of the aim beside the second program with our CRC, where it was timed.
fn same_aim(scene: Scene, ours: &Times, same: Option<&Times>) -> [String; 2] {
    match (scene.kind, scene.payload, same) {
        (Kind::Write, 8178, Some(same)) => Aim(Some(SAME_CRC)).cells(ours.ratio(same)),
        _ => [table::NONE, table::NONE].map(String::from),
    }
}

/// Times one scene and writes its row.
fn row(scene: Scene) {
    let compared = compare(scene);
    let (ours, second) = (&compared.ours, &compared.second);
    let mut cells = vec![
        format!("{:?}", scene.kind),
        table::grouped(scene.payload as u64),
    ];
    cells.extend(table::compared(
        String::from(on_off(scene.crc)),
        ours,
        second,
    ));
    cells.extend(aim(scene).cells(ours.ratio(second)));
    cells.extend(table::with_crc(ours, compared.eight.as_ref()));
    cells.extend(table::with_crc(ours, compared.same.as_ref()));
    cells.extend(same_aim(scene, ours, compared.same.as_ref()));
    cells.push(table::times(&compared.copying));
    table::row(&cells);
}

/// Names the CRC's setting.
pub fn on_off(crc: bool) -> &'static str {
    if crc {
        "on"
    } else {
        "off"
    }
}
