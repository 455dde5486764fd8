//! The gauge of each domain: what is counted as placed, ticks and readings, and the program that reads samples.

use std::io::Write;
use std::process::{Command, Stdio};

use oracle::gauge::{Gauge, Reading};
use oracle::generate::draft::{frame, Draft};
use oracle::generate::samples::write_file;
use oracle::rdmap::WRITE;
use oracle::receive::Answer;
use oracle::refusal::Refusal;
use oracle::samples;
use oracle::script::Interpreter;
use oracle::state::{Device, Part, DOMAINS};

/// Opens a device of 64 bytes, in which domain 1 has stream 4 and window 17 with key 5 over its 16 bytes.
fn device() -> Device {
    let mut device = Device::default();
    let parts = [0, 16, 32, 48].map(|start| Part {
        start,
        end: start + 16,
    });
    device.open(64, parts).unwrap();
    device.open_stream(4, false).unwrap();
    device.register(17, 5, 0, 16, 16, 1).unwrap();
    device
}

/// Receives a Write of so many bytes for domain 1.
fn write(device: &mut Device, length: usize) {
    let draft = Draft {
        stag: 0x1105,
        payload: vec![7; length],
        ..Draft::new(true, WRITE)
    };
    let answer = device.receive(&mut [0; 64], 4, &frame(&draft.ulpdu(), 0));
    assert!(matches!(answer, Answer::Taken { .. }));
}

/// Gives what the program writes for some bytes.
fn program(bytes: &[u8]) -> String {
    let mut child = Command::new(env!("CARGO_BIN_EXE_gauge"))
        .stdin(Stdio::piped())
        .stdout(Stdio::piped())
        .spawn()
        .unwrap();
    let mut input = child.stdin.take().unwrap();
    input.write_all(bytes).unwrap();
    drop(input);
    let output = child.wait_with_output().unwrap();
    assert!(output.status.success());
    String::from_utf8(output.stdout).unwrap()
}

/// Gives what a gauge over some bytes writes.
fn gauged(bytes: &[u8]) -> String {
    let mut output = Vec::new();
    samples::run(bytes, &mut output).unwrap();
    String::from_utf8(output).unwrap()
}

/// Writes a file of samples.
fn file(seed: u64, count: u64) -> Vec<u8> {
    let mut bytes = Vec::new();
    write_file(seed, count, &mut bytes).unwrap();
    bytes
}

#[test]
fn the_count_stops_at_its_highest_value() {
    for (before, length, after) in [
        (0, 4, 4),
        (u32::MAX - 4, 4, u32::MAX),
        (u32::MAX - 3, 4, u32::MAX),
        (u32::MAX, 16, u32::MAX),
        (u32::MAX, 0, u32::MAX),
    ] {
        let mut device = device();
        device.placed[1] = before;
        write(&mut device, length);
        assert_eq!(device.placed, [0, after, 0, 0]);
        device.tick(1).unwrap();
        assert_eq!(device.placed, [0; DOMAINS]);
        let level = f64::from(after);
        assert_eq!(device.reading(1), Ok(Reading::Steady { level }));
    }
}

#[test]
fn a_tick_is_one_domains_own() {
    let mut device = device();
    device.placed = [5, 6, 7, 8];
    let before = device.clone();
    for domain in [4, 5, u64::MAX] {
        assert_eq!(device.tick(domain), Err(Refusal::OutOfRange));
        assert_eq!(device.reading(domain), Err(Refusal::OutOfRange));
    }
    assert!(device == before);
    device.tick(2).unwrap();
    assert_eq!(device.placed, [5, 6, 0, 8]);
    for domain in [0, 1, 3] {
        assert_eq!(device.gauges[domain], Gauge::default());
    }
    assert_eq!(device.reading(2), Ok(Reading::Steady { level: 7.0 }));
}

#[test]
fn an_opening_starts_anew() {
    for (line, answer) in [
        ("open 64 0 16 16 32 32 48 48 64", "opened"),
        ("open 64 0 16 15 32 32 48 48 64", "refused 9"),
        ("open 0 0 0 0 0 0 0 0 0", "refused 1"),
    ] {
        let mut interpreter = Interpreter::default();
        interpreter.device = device();
        write(&mut interpreter.device, 8);
        interpreter.device.tick(1).unwrap();
        write(&mut interpreter.device, 8);
        assert_eq!(interpreter.run_line(line.as_bytes()).unwrap(), answer);
        assert_eq!(interpreter.device.placed, [0; DOMAINS]);
        assert_eq!(interpreter.device.gauges, [Gauge::default(); DOMAINS]);
        assert_eq!(interpreter.run_line(b"reading 1").unwrap(), "quiet");
        assert_eq!(interpreter.run_line(b"tick 1").unwrap(), "done");
        assert_eq!(interpreter.run_line(b"reading 1").unwrap(), "quiet");
    }
}

#[test]
fn samples_are_digits_alone() {
    for (line, value) in [
        (&b"0"[..], 0),
        (b"8", 8),
        (b"4294967295", u32::MAX),
        (b"0000000000000000000000004294967295", u32::MAX),
        (b"00", 0),
    ] {
        assert_eq!(samples::sample(line), Some(value));
    }
    let lines: [&[u8]; 18] = [
        b"",
        b" ",
        b" 1",
        b"1 ",
        b"+1",
        b"-0",
        b"1\r",
        b"1\t",
        b"1.0",
        b"1e3",
        b"0x1",
        b"a",
        b"4294967296",
        b"0000004294967296",
        b"18446744073709551624",
        b"1\0",
        b"\xB2",
        b"\xD9\xA1",
    ];
    for line in lines {
        assert_eq!(samples::sample(line), None, "{line:?}");
    }
}

#[test]
fn a_bad_line_changes_nothing() {
    let steady = "steady 4020000000000000\n";
    assert_eq!(program(b"8\n"), steady);
    assert_eq!(program(b"8"), steady);
    assert_eq!(program(b""), "");
    assert_eq!(program(b"\n"), "bad\n");
    assert_eq!(program(b"\n8"), format!("bad\n{steady}"));
    let mixed = b"x\n8\n\n8 \n4294967296\n08\n\xFF\n16";
    let answers = format!("bad\n{steady}bad\nbad\nbad\n{steady}bad\nsteady 4022000000000000\n");
    assert_eq!(program(mixed), answers);
}

#[test]
fn a_line_may_be_of_any_length() {
    let zeros = vec![b'0'; 1_000_000];
    assert_eq!(
        gauged(&[&zeros[..], b"8\n8"].concat()),
        "steady 4020000000000000\n".repeat(2)
    );
    let ones = vec![b'1'; 1_000_000];
    assert_eq!(
        gauged(&[&ones[..], b"\n8"].concat()),
        "bad\nsteady 4020000000000000\n"
    );
}

/// Samples of 1 after a first of 0 bring the level near 1 and never to it.
#[test]
fn a_level_that_settles_under_one_stays_quiet() {
    let answers = gauged(&[&b"0\n"[..], &b"1\n".repeat(1000)].concat());
    assert_eq!(answers, "quiet\n".repeat(1001));
}

#[test]
fn files_of_samples_reach_every_answer() {
    let mut counts = [0; 4];
    let (mut whole, mut long) = (0, 0);
    for seed in 1..=100 {
        let bytes = file(seed, 1000);
        assert!(bytes == file(seed, 1000));
        let ends = bytes.last() == Some(&b'\n');
        whole += u32::from(ends);
        let lines: Vec<&[u8]> = bytes.split(|&byte| byte == b'\n').collect();
        assert_eq!(lines.len(), 1000 + usize::from(ends));
        long += lines.iter().filter(|line| line.len() > 65_536).count();
        let answers = gauged(&bytes);
        assert_eq!(answers.lines().count(), 1000);
        for answer in answers.lines() {
            let kinds = ["quiet", "steady ", "falling ", "bad"];
            let kind = kinds.iter().position(|kind| answer.starts_with(kind));
            counts[kind.unwrap()] += 1;
        }
    }
    println!("{counts:?}, {whole} with a last newline, {long} long lines");
    assert!(counts.iter().all(|&count| count > 1000));
    assert!((20..80).contains(&whole) && long > 3);
}

#[test]
fn the_shortest_files() {
    assert_eq!(file(1, 0), b"");
    for seed in 1..=50 {
        let bytes = file(seed, 1);
        assert!(!bytes.is_empty());
        assert_eq!(gauged(&bytes).lines().count(), 1);
    }
}

/// How a gauge with a flaw moves its level and its peak, and what it takes for quiet and for falling.
#[derive(Clone, Copy)]
struct Flawed {
    level: fn(f64, f64) -> f64,
    peak: fn(f64, f64) -> f64,
    quiet: fn(f64) -> bool,
    falls: fn(f64, f64) -> bool,
}

/// A gauge without one.
const SOUND: Flawed = Flawed {
    level: |level, sample| level + (sample - level) / 8.0,
    peak: f64::max,
    quiet: |level| level < 1.0,
    falls: |level, peak| level < peak / 2.0,
};

impl Flawed {
    /// Gives what it writes for some bytes.
    fn gauged(&self, bytes: &[u8]) -> String {
        let mut answers = String::new();
        let mut kept = None;
        let bytes = bytes.strip_suffix(b"\n").unwrap_or(bytes);
        for line in bytes.split(|&byte| byte == b'\n') {
            let Some(sample) = samples::sample(line).map(f64::from) else {
                answers.push_str("bad\n");
                continue;
            };
            let (level, peak) = match kept {
                None => (sample, sample),
                Some((level, peak)) => {
                    let level = (self.level)(level, sample);
                    (level, (self.peak)(peak, level))
                }
            };
            kept = Some((level, peak));
            let reading = match ((self.quiet)(level), (self.falls)(level, peak)) {
                (true, _) => Reading::Quiet,
                (false, true) => Reading::Falling { level, peak },
                (false, false) => Reading::Steady { level },
            };
            answers.push_str(&format!("{reading}\n"));
        }
        answers
    }
}

#[test]
fn flaws_are_found_by_the_files() {
    let files: Vec<Vec<u8>> = (1..=100).map(|seed| file(seed, 1000)).collect();
    let found = |flawed: Flawed| {
        let differ = |bytes: &&Vec<u8>| flawed.gauged(bytes) != gauged(bytes);
        files.iter().filter(differ).count()
    };
    assert_eq!(found(SOUND), 0);
    let level = |level| Flawed { level, ..SOUND };
    for (name, flawed) in [
        (
            "joined steps",
            level(|level, sample| (7.0 * level + sample) / 8.0),
        ),
        (
            "shares apart",
            level(|level, sample| level - level / 8.0 + sample / 8.0),
        ),
        (
            "single floats",
            level(|level, sample| {
                let (level, sample) = (level as f32, sample as f32);
                f64::from(level + (sample - level) / 8.0)
            }),
        ),
        (
            "no settling",
            level(|level, sample| match (sample - level).abs() < 1e-9 {
                true => sample,
                false => level + (sample - level) / 8.0,
            }),
        ),
        (
            "first peak",
            Flawed {
                peak: |peak, _| peak,
                ..SOUND
            },
        ),
        (
            "last peak",
            Flawed {
                peak: |_, level| level,
                ..SOUND
            },
        ),
        (
            "quiet at 1",
            Flawed {
                quiet: |level| level <= 1.0,
                ..SOUND
            },
        ),
        (
            "falls at half",
            Flawed {
                falls: |level, peak| level <= peak / 2.0,
                ..SOUND
            },
        ),
        (
            "quiet at 0 alone",
            Flawed {
                quiet: |level| level == 0.0,
                ..SOUND
            },
        ),
    ] {
        let found = found(flawed);
        println!("{name}: {found} of 100");
        assert!(found > 0, "{name}");
    }
}
