//! The program that makes a script of a captured TCP stream: `siw [COUNT]` reads it, a line of hex for each segment of TCP,
//! and offers the first COUNT of these, or all, piece by piece as TCP brought them.

use std::env;
use std::io;
use std::process::ExitCode;

use oracle::capture::{Capture, KEY};
use oracle::ddp::{Header, Segment};
use oracle::hex;
use oracle::rdmap;
use oracle::script::{Interpreter, STORE};

/// The stream that takes the bytes, and the first window of its domain.
const STREAM: usize = 4;
const WINDOW: u32 = 16;
/// The most bytes of an FPDU's payload that are shown after it is placed.
const SHOWN: u64 = 16;

/// The most bytes that are offered to a stream that has ended.
const AFTER: usize = 24;

/// A script in the making: a device that runs alongside, the place where the store is still free, and the lengths of the
/// messages that have no buffer yet.
struct Scene {
    interpreter: Interpreter,
    free: u64,
    messages: std::vec::IntoIter<u64>,
}

/// Writes the script of the capture on standard input.
fn main() -> ExitCode {
    let count = env::args()
        .nth(1)
        .map_or(Ok(usize::MAX), |word| word.parse());
    let text = io::read_to_string(io::stdin()).ok();
    let capture = text.and_then(|text| Capture::read(&text, WINDOW));
    let (Ok(count), Some(capture)) = (count, capture) else {
        eprintln!("usage: siw [COUNT] < CAPTURE");
        return ExitCode::FAILURE;
    };
    write_script(&capture, count);
    ExitCode::SUCCESS
}

/// Writes the lines that set the scene, the offers, and a look at what is left.
fn write_script(capture: &Capture, count: usize) {
    let mut scene = Scene {
        interpreter: Interpreter::default(),
        free: 0,
        messages: message_lengths(capture).into_iter(),
    };
    scene.say(&format!(
        "open {STORE} 0 0 0 {STORE} {STORE} {STORE} {STORE} {STORE}"
    ));
    scene.say(&format!(
        "stream {STREAM} {}",
        if capture.crc { "on" } else { "off" }
    ));
    for (number, region) in (WINDOW..).zip(&capture.regions) {
        let (base, rights) = (region.offsets.start, region.rights);
        let length = (region.offsets.end - base).max(1);
        let place = scene.place(length);
        scene.say(&format!(
            "# Window {number} stands for STag {:06x}00.",
            region.name
        ));
        scene.say(&format!(
            "register {number} {KEY} {base} {length} {place} {rights}"
        ));
    }
    scene.offer_all(capture, count);
    scene.say(&format!("held {STREAM}"));
    scene.say("live 1");
    scene.say(&format!("close {STREAM}"));
}

/// Gives the length of each Send.
fn message_lengths(capture: &Capture) -> Vec<u64> {
    let mut lengths = vec![0];
    for frame in capture.frames() {
        match capture.segment(frame) {
            Some(segment) if rdmap::is_send(rdmap::opcode(segment.rdmap_control)) => {
                *lengths.last_mut().expect("never empty") += segment.payload.len() as u64;
                if segment.last {
                    lengths.push(0);
                }
            }
            _ => (),
        }
    }
    lengths.pop();
    lengths
}

impl Scene {
    /// Writes a line and gives its answer.
    fn say(&mut self, line: &str) -> String {
        println!("{line}");
        self.interpreter
            .run_line(line.as_bytes())
            .unwrap_or_default()
    }

    /// Gives a place for so many bytes.
    fn place(&mut self, length: u64) -> u64 {
        let place = self.free;
        self.free += length;
        place
    }

    /// Posts buffers as long as the messages to come, as many as may wait.
    fn post(&mut self) {
        while !self.interpreter.device.streams[STREAM].buffers.is_full() {
            let Some(length) = self.messages.next() else {
                return;
            };
            let start = self.place(length.max(1));
            self.say(&format!("post {STREAM} {start} {}", length.max(1)));
        }
    }

    /// Offers the segments of TCP one by one, what is not taken of one again, until the stream ends; what comes next is
    /// offered too.
    fn offer_all(&mut self, capture: &Capture, count: usize) {
        let mut frames = capture.frames().into_iter();
        let mut at = 0;
        for &end in capture.ends.iter().take(count) {
            while at < end {
                self.post();
                let head = self.interpreter.device.streams[STREAM].buffers.first();
                let answer = self.offer(&capture.bytes[at..end]);
                let words: Vec<&str> = answer.split(' ').collect();
                let Some(took) = words.get(1).filter(|_| words[0] == "took") else {
                    let next = &capture.bytes[end..];
                    return drop(self.offer(&next[..next.len().min(AFTER)]));
                };
                at += took.parse().unwrap_or(0);
                if words.contains(&"taken") {
                    let start = head.map_or(0, |buffer| buffer.start);
                    let frame = frames.next();
                    self.show(frame.and_then(|frame| capture.segment(frame)), start);
                }
            }
        }
    }

    /// Offers bytes.
    fn offer(&mut self, bytes: &[u8]) -> String {
        self.say(&format!("offer {STREAM} {}", hex::encode(bytes)))
    }

    /// Shows what an FPDU that was taken brought: the end of its payload, or the read.
    fn show(&mut self, segment: Option<Segment>, buffer: u64) {
        let Some(segment) = segment else {
            return;
        };
        let length = segment.payload.len() as u64;
        let start = match segment.header {
            Header::Tagged { stag, to } => {
                let window = self.interpreter.device.windows.get((stag >> 8) as usize);
                window.map_or(0, |window| window.place + to.wrapping_sub(window.base))
            }
            Header::Untagged { qn: 0, mo, .. } => buffer + u64::from(mo),
            Header::Untagged { qn: 1, .. } => return drop(self.say(&format!("take {STREAM}"))),
            _ => return,
        };
        let shown = length.min(SHOWN);
        if shown > 0 {
            self.say(&format!("bytes {} {shown}", start + length - shown));
        }
    }
}
