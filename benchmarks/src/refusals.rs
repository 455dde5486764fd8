//! Refusals: of the peer's bytes, which end the stream, and of the host's own calls.

use rnic::RIGHT_READ;
use oracle::generate::draft::{frame, Draft};
use oracle::mpa::{CRC_FIELD, LENGTH_FIELD};
use oracle::rdmap;
use oracle::state::{STREAMS, WINDOWS_PER_DOMAIN};

use crate::bed::{act, buffer, Act, Step, CLOSED, LIVE, PLACE, RIGHTS, STREAM, WINDOW};
use crate::calls::{self, read_request, send, write_of, RECEIVE};
use crate::scene::{BASE, FRAMES, KEY, ROOM};
use crate::table;

/// Bytes of the payloads.
const SIZE: usize = 64;
/// A buffer for a payload.
const POST: Step = Step::Post(STREAM, buffer(0), SIZE as u64);
/// The stream closed, and opened with the CRC off or on.
pub const CLOSE: Step = Step::Close(STREAM);
pub const REOPEN: Step = Step::OpenStream(STREAM, false);
const REOPEN_ON: Step = Step::OpenStream(STREAM, true);

/// Writes both tables.
pub fn write() {
    let columns = ["ours", "second program", "ours ÷ second"];
    println!("\n### The peer's bytes refused, and the stream closed and opened again");
    table::head(&["refusal"], &columns);
    alone().iter().chain(&peers()).for_each(row);
    println!("\n### The host's calls refused");
    table::head(&["refusal"], &columns);
    locals().iter().for_each(row);
}

/// Times an act and writes its row.
fn row(act: &Act) {
    let [ours, second] = act.times();
    let name = match act.steps[..] {
        [Step::Post(..), _, ..] if act.refused.is_some() => format!("{}, with a post", act.name),
        _ => act.name.clone(),
    };
    table::row(&table::compared(name, &ours, &second));
}

/// Gives what the other rows do beside the frame: to be subtracted.
fn alone() -> [Act; 2] {
    let posted = "none: post, close and open alone";
    [
        act!("none: close and open alone", [CLOSE, REOPEN], Vec::new()),
        act!(posted, [POST, CLOSE, REOPEN], Vec::new()),
    ]
}

/// Gives an act for each refusal of the peer's bytes.
pub fn peers() -> Vec<Act> {
    let mut acts = framed().to_vec();
    acts.extend(tagged());
    acts.extend(queued());
    acts.extend(messages());
    acts.sort_by_key(|act| act.refused);
    acts
}

/// Names a refusal.
fn named(number: u8, name: &str) -> String {
    format!("{number}: {name}")
}

/// Gives the act of an FPDU that is refused.
fn peer(number: u8, name: &str, bytes: Vec<u8>) -> Act {
    act!(named(number, name), [RECEIVE, CLOSE, REOPEN], bytes).refused(number)
}

/// Gives the act of a segment that is refused, made from a good one.
fn spoilt(number: u8, name: &str, mut draft: Draft, spoil: impl FnOnce(&mut Draft)) -> Act {
    spoil(&mut draft);
    peer(number, name, frame(&draft.ulpdu(), 0))
}

/// Gives the act of a Send that is refused, made from a good one, with a buffer posted before it.
fn posted(number: u8, name: &str, spoil: impl FnOnce(&mut Draft)) -> Act {
    let mut draft = send(SIZE);
    spoil(&mut draft);
    let bytes = frame(&draft.ulpdu(), 0);
    act!(named(number, name), [POST, RECEIVE, CLOSE, REOPEN], bytes).refused(number)
}

/// Gives the acts of frames and headers: too long, with another CRC, too short, of another version.
fn framed() -> [Act; 4] {
    let good = frame(&write_of(SIZE).ulpdu(), 0);
    let (mut long, mut damaged) = (good.clone(), good);
    long[..LENGTH_FIELD].fill(0xFF);
    let crc = damaged.len() - CRC_FIELD;
    damaged[crc] ^= 1;
    let name = named(21, "wrong CRC, CRC on");
    let checked = act!(name, [RECEIVE, CLOSE, REOPEN_ON], damaged).refused(21);
    [
        peer(20, "ULPDU too long", long),
        checked.after(&[CLOSE, REOPEN_ON]),
        spoilt(22, "ULPDU too short", write_of(0), |draft| draft.cut = 1),
        spoilt(23, "another DDP version", write_of(SIZE), |draft| {
            draft.ddp_version = 2;
        }),
    ]
}

/// Gives the acts of Writes: to another domain's window, a wrong key, offsets that wrap or lie outside, and what a Write is
/// judged by after that.
fn tagged() -> [Act; 7] {
    let write = |number, name, spoil: fn(&mut Draft)| spoilt(number, name, write_of(SIZE), spoil);
    [
        write(24, "Write to another domain's window", |draft| {
            draft.stag = (WINDOWS_PER_DOMAIN as u32) << 8 | KEY as u32;
        }),
        write(25, "Write with another key", |draft| draft.stag += 1),
        write(26, "Write past the last offset", |draft| {
            draft.to = u64::MAX;
        }),
        write(27, "Write outside the window", |draft| {
            draft.to = BASE + ROOM;
        }),
        write(33, "another RDMAP version", |draft| draft.rdmap_version = 2),
        write(34, "opcode of no Write", |draft| {
            draft.opcode = rdmap::READ_REQUEST;
        }),
        write(35, "Write to a window without the right", |draft| {
            draft.stag = (WINDOW as u32) << 8 | KEY as u32;
        })
        .after(&[Step::Register(WINDOW, RIGHT_READ)]),
    ]
}

/// Gives the acts of queues: no such queue, another MSN, no buffer, another MO, too many bytes.
fn queued() -> [Act; 5] {
    [
        spoilt(28, "Send to no queue", send(SIZE), |draft| draft.qn = 3),
        spoilt(29, "Send with another MSN", send(SIZE), |draft| {
            draft.msn = 2;
        }),
        spoilt(30, "Send without a buffer", send(SIZE), |_| ()),
        posted(31, "Send with another MO", |draft| draft.mo = 1),
        posted(32, "Send longer than its buffer", |draft| {
            draft.payload.push(0);
        }),
    ]
}

/// Gives the acts of messages: a dead STag to invalidate, a short Read Request, one of bytes outside its window.
fn messages() -> [Act; 3] {
    [
        posted(36, "Send with Invalidate of a dead STag", |draft| {
            draft.opcode = rdmap::SEND_INVALIDATE;
        }),
        spoilt(37, "Read Request a byte short", read_request(), |draft| {
            draft.cut = 1;
        }),
        spoilt(38, "Read Request outside", read_request(), |draft| {
            draft.to = BASE + ROOM;
        }),
    ]
}

/// A stream that there is not, and a buffer that lies in no part.
const NO_STREAM: Step = Step::OpenStream(STREAMS as u64, false);
const OUTSIDE: Step = Step::Post(STREAM, 0, u64::MAX);
/// The other window registered and dropped, and the one that stays registered again.
pub const REGISTER: Step = Step::Register(WINDOW, RIGHTS);
pub const DROP: Step = Step::Drop(WINDOW);
const AGAIN: Step = Step::Register(LIVE, RIGHTS);
/// A buffer where the other window is registered, and one in the window that stays.
const BELOW: Step = Step::Post(STREAM, PLACE, SIZE as u64);
const OVER: Step = Step::Post(STREAM, 0, SIZE as u64);

/// Gives an act of one step, which is refused: number, name, step and FPDU.
macro_rules! local {
    ($number:expr, $name:expr, $step:expr, $bytes:expr) => {
        act!(named($number, $name), [$step], $bytes.clone()).refused($number)
    };
}

/// Gives an act for each refusal of the host's calls.
pub fn locals() -> [Act; 14] {
    let none = Vec::new();
    let good = frame(&write_of(SIZE).ulpdu(), 0);
    let bad = frame(&Draft::new(true, rdmap::READ_REQUEST).ulpdu(), 0);
    let take = calls::take_none();
    let eight = (0..FRAMES).map(|number| Step::Post(STREAM, buffer(number), SIZE as u64));
    let eight: Vec<Step> = eight.collect();
    [
        local!(1, "open a stream out of range", NO_STREAM, none),
        local!(
            2,
            "receive, another store",
            Step::ReceiveShort(STREAM),
            good
        ),
        local!(3, "receive, stream not open", Step::Receive(CLOSED), good),
        local!(4, "open a stream that is open", REOPEN, none),
        local!(5, "receive, stream ended", RECEIVE, bad).after(&[RECEIVE]),
        local!(6, "register, window live", AGAIN, none),
        local!(7, "drop, window not live", DROP, none),
        local!(8, "register, key used last", REGISTER, none).after(&[REGISTER, DROP]),
        local!(9, "post outside the part", OUTSIDE, none),
        local!(10, "post, eight wait", POST, none).after(&eight),
        Act {
            name: named(11, &take.name),
            ..take
        },
        local!(16, "receive, stream holds bytes", RECEIVE, good).after(&[Step::OfferFront(STREAM)]),
        local!(19, "register over a buffer", REGISTER, none).after(&[BELOW]),
        local!(19, "post over a window", OVER, none),
    ]
}
