//! The question what a stream's state is: as its history has it, and as the other calls on it answer.

use oracle::command::{parse, Command, Line};
use oracle::generate::nights;
use oracle::rdmap::{READ_REQUEST, TERMINATE};
use oracle::refusal::{Refusal, BOUNDS};
use oracle::script::{run, Interpreter};
use oracle::state::{Condition, Device, Part, STREAMS};

/// Bytes of a store whose first half is domain 0's part.
const STORE: u64 = 64;

/// Opens a device with stream 0 open and a buffer on it.
fn device() -> Device {
    let mut device = Device::default();
    let ends = [(0, 32), (32, 64), (64, 64), (64, 64)];
    let parts = ends.map(|(start, end)| Part { start, end });
    device.open(STORE, parts).unwrap();
    device.open_stream(0, false).unwrap();
    device.post(0, 0, 2).unwrap();
    device
}

/// Frames an untagged segment with L, whose CRC is not looked at.
fn untagged(opcode: u8, qn: u8, payload: &[u8]) -> Vec<u8> {
    let mut bytes = vec![0, 18 + payload.len() as u8, 0x41, 0x40 | opcode];
    bytes.extend([0, 0, 0, 0, 0, 0, 0, qn, 0, 0, 0, 1, 0, 0, 0, 0]);
    bytes.extend(payload);
    bytes.resize(bytes.len().next_multiple_of(4) + 4, 0);
    bytes
}

#[test]
fn each_state_of_a_stream() {
    let mut device = device();
    let mut store = [0; STORE as usize];
    assert_eq!(device.state(0), Ok((Condition::Open, (1, 0))));
    assert_eq!(device.state(1), Ok((Condition::Closed, (0, 0))));
    device.receive(&mut store, 0, &untagged(READ_REQUEST, 1, &[0; 28]));
    assert_eq!(device.state(0), Ok((Condition::Open, (1, 1))));
    let mut ended = device.clone();
    assert!(ended.register(0, 1, 0, 1, 8, 1).is_ok());
    // A Write of two bytes to a window of one.
    let write = [
        0, 16, 0xC1, 0x40, 0, 0, 0, 1, 0, 0, 0, 0, 0, 0, 0, 0, 7, 7, 0, 0, 0, 0, 0, 0,
    ];
    ended.receive(&mut store, 0, &write);
    assert_eq!(ended.state(0), Ok((Condition::Faulted(BOUNDS), (1, 1))));
    device.receive(&mut store, 0, &untagged(TERMINATE, 2, &[0x12, 5, 0, 0]));
    assert_eq!(device.state(0), Ok((Condition::Terminated, (1, 1))));
    assert_eq!(device.close_stream(0), Ok((1, 1)));
    assert_eq!(device.state(0), Ok((Condition::Closed, (0, 0))));
    for number in [16, 17, 1 << 32, u64::MAX] {
        assert_eq!(device.state(number), Err(Refusal::OutOfRange), "{number}");
    }
}

#[test]
fn the_lines_of_a_script() {
    let mut interpreter = Interpreter::default();
    interpreter.device = device();
    for (line, answer) in [
        ("state 0", "state open 1 0"),
        ("state 3", "state closed"),
        ("state 16", "refused 1"),
        ("state 18446744073709551615", "refused 1"),
        ("state 18446744073709551616", "bad"),
        ("state", "bad"),
        ("state 0 0", "bad"),
        ("state -", "bad"),
        ("State 0", "bad"),
    ] {
        let before = interpreter.device.clone();
        let given = interpreter.run_line(line.as_bytes());
        assert_eq!(given.as_deref(), Some(answer), "{line}");
        assert!(interpreter.device == before, "{line}");
    }
    for (condition, answer) in [
        (Condition::Faulted(BOUNDS), "state ended 27 1/1/01 1 0"),
        (Condition::Terminated, "state terminated 1 0"),
    ] {
        interpreter.device.streams[0].condition = condition;
        let given = interpreter.run_line(b"state 0");
        assert_eq!(given.as_deref(), Some(answer));
    }
}

/// What the lines of a script and their answers tell of a stream: how it stands, what was posted and read but not finished or
/// taken, and the front of an FPDU that is not whole.
#[derive(Clone, Default)]
struct Told {
    open: Option<String>,
    buffers: usize,
    reads: usize,
    front: Vec<u8>,
}

impl Told {
    /// Gives the answer that the history makes of a question for the state.
    fn state(&self) -> String {
        match &self.open {
            None => String::from("state closed"),
            Some(open) => format!("state {open} {} {}", self.buffers, self.reads),
        }
    }

    /// Starts afresh as open.
    fn opened() -> Self {
        Told {
            open: Some(String::from("open")),
            ..Told::default()
        }
    }

    /// Goes on by bytes that were received or offered, and what was answered.
    fn go_on(&mut self, bytes: &[u8], answer: &str) {
        let words: Vec<&str> = answer.split(' ').collect();
        match words[..] {
            ["refused", number, code] => self.open = Some(format!("ended {number} {code}")),
            ["took", _] => self.front.extend(bytes),
            ["taken", .., "terminate", _, _, _] | ["took", .., "terminate", _, _, _] => {
                self.open = Some(String::from("terminated"));
            }
            ["taken", ..] | ["took", _, "taken", ..] => {
                self.buffers -= usize::from(words.contains(&"send"));
                let fpdu = [&std::mem::take(&mut self.front), bytes].concat();
                let untagged = fpdu[2] & 0x80 == 0;
                self.reads += usize::from(untagged && fpdu[3] & 15 == READ_REQUEST);
            }
            _ => (),
        }
    }
}

/// Follows a line and its answer.
fn follow(told: &mut [Told; STREAMS], line: &[u8], answer: &str) {
    let Line::Command(command) = parse(line) else {
        return;
    };
    match (command, answer.split(' ').next().unwrap()) {
        (Command::Open { .. }, _) => *told = Default::default(),
        (Command::Stream { stream, .. }, "done") => told[stream as usize] = Told::opened(),
        (Command::Close(stream), "closed") => told[stream as usize] = Told::default(),
        (Command::Post { stream, .. }, "done") => told[stream as usize].buffers += 1,
        (Command::Take(stream), "read") => told[stream as usize].reads -= 1,
        (Command::Receive { stream, bytes, .. }, _) if stream < STREAMS as u64 => {
            told[stream as usize].go_on(&bytes, answer);
        }
        (Command::Offer { stream, bytes, .. }, _) if stream < STREAMS as u64 => {
            told[stream as usize].go_on(&bytes, answer);
        }
        _ => (),
    }
}

/// After each line of a night every stream's state is the one that the lines so far and their answers tell, and closing it
/// would count what it says.
#[test]
fn states_are_those_of_the_history() {
    for seed in 1..=40 {
        let mut script = Vec::new();
        nights::write_script(seed, 500, &mut script).unwrap();
        let mut told: [Told; STREAMS] = Default::default();
        let mut beside = Interpreter::default();
        run(&script[..], std::io::sink(), |line, answer| {
            beside.run_line(line);
            follow(&mut told, line, answer);
            for (stream, told) in told.iter().enumerate() {
                let state = beside.run_line(format!("state {stream}").as_bytes());
                let line = String::from_utf8_lossy(line);
                assert_eq!(state, Some(told.state()), "{seed}: {stream} after {line}");
                let counted = beside.device.clone().close_stream(stream as u64);
                assert_eq!(counted.is_err(), told.open.is_none());
                let counted = counted.unwrap_or_default();
                assert_eq!(counted, (told.buffers, told.reads), "{seed}: {stream}");
            }
        })
        .unwrap();
    }
}
