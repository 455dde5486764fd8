//! The lines of one night's log and the annotated dumps of the MPA standard.

use oracle::crc::{crc32c_bitwise, crc_field};
use oracle::hex;
use oracle::mpa::fpdu_total;
use oracle::receive::Answer;
use oracle::script::Interpreter;
use oracle::state::{Device, Part};

const SCENE: [&str; 3] = [
    "open 4096 0 1024 1024 2048 2048 3072 3072 4096",
    "register 17 5 4096 4 1024 1",
    "stream 4 off",
];

/// Opens the log's scene.
fn scene() -> Interpreter {
    let mut interpreter = Interpreter::default();
    for line in SCENE {
        say(&mut interpreter, line);
    }
    interpreter
}

/// Runs one line and gives its answer.
fn say(interpreter: &mut Interpreter, line: &str) -> String {
    interpreter.run_line(line.as_bytes()).unwrap_or_default()
}

/// Gives the log's Write with an STag, a tagged offset and four bytes.
fn write(stag: u32, to: u64) -> String {
    format!("0012c140{stag:08x}{to:016x}deadbeef00000000")
}

/// Receives the log's Write in the scene and gives the answer.
fn write_answer(stream: u64, stag: u32, to: u64) -> String {
    let mut interpreter = scene();
    say(&mut interpreter, "stream 0 off");
    say(
        &mut interpreter,
        &format!("receive {stream} {}", write(stag, to)),
    )
}

#[test]
fn fpdu_totals() {
    let totals = [0, 14, 15, 18, 23, 2048, 8191, 8192].map(fpdu_total);
    assert_eq!(totals, [8, 20, 24, 24, 32, 2056, 8200, 8200]);
}

#[test]
fn write_changes_its_four_bytes_alone() {
    let mut interpreter = scene();
    interpreter.store.fill(0x77);
    let mut expected = interpreter.store.clone();
    expected[1024..1028].copy_from_slice(&[0xDE, 0xAD, 0xBE, 0xEF]);
    let line = "receive 4 0012C140000011050000000000001000DEADBEEF01020304";
    assert_eq!(say(&mut interpreter, line), "taken 24");
    assert!(interpreter.store == expected);
}

#[test]
fn cut_write_waits() {
    let mut interpreter = scene();
    let frame = write(0x1105, 4096);
    let before = interpreter.device.clone();
    let line = format!("receive 4 {}", &frame[..46]);
    assert_eq!(say(&mut interpreter, &line), "wait 24");
    assert_eq!(say(&mut interpreter, "receive 4 00"), "wait 2");
    assert_eq!(say(&mut interpreter, "receive 4 -"), "wait 2");
    assert!(interpreter.device == before);
}

#[test]
fn write_refusals() {
    assert_eq!(write_answer(4, 0x1105, 4097), "refused 27 1/1/01");
    assert_eq!(write_answer(4, 0x1106, 4096), "refused 25 1/1/00");
    assert_eq!(write_answer(0, 0x1105, 4096), "refused 24 1/1/02");
    assert_eq!(write_answer(4, 0x1105, u64::MAX - 3), "refused 27 1/1/01");
    assert_eq!(write_answer(4, 0x1105, u64::MAX - 2), "refused 26 1/1/03");
}

#[test]
fn other_domain_after_drop() {
    let mut interpreter = scene();
    say(&mut interpreter, "stream 0 off");
    assert_eq!(say(&mut interpreter, "drop 17"), "done");
    let line = format!("receive 0 {}", write(0x1105, 4096));
    assert_eq!(say(&mut interpreter, &line), "refused 24 1/1/02");
}

#[test]
fn read_right_only() {
    let mut interpreter = scene();
    say(&mut interpreter, "drop 17");
    say(&mut interpreter, "register 17 6 4096 4 1024 2");
    let line = format!("receive 4 {}", write(0x1106, 4096));
    assert_eq!(say(&mut interpreter, &line), "refused 35 0/1/02");
}

#[test]
fn empty_write_names_no_window() {
    let mut interpreter = scene();
    let line = "receive 4 000ec14000000000000000000000000000000000";
    assert_eq!(say(&mut interpreter, line), "taken 20");
}

#[test]
fn send_of_five_bytes() {
    let line = "receive 4 001741430000000000000000000000010000000048454c4c4f000000000000ff";
    let mut interpreter = scene();
    assert_eq!(say(&mut interpreter, "post 4 1100 5"), "done");
    assert_eq!(say(&mut interpreter, line), "taken 32 send 1100 5 3");
    assert_eq!(
        say(&mut interpreter, "bytes 1099 7"),
        "bytes 0048454c4c4f00"
    );
    let mut interpreter = scene();
    assert_eq!(say(&mut interpreter, "post 4 1100 4"), "done");
    assert_eq!(say(&mut interpreter, line), "refused 32 1/2/05");
    assert_eq!(
        say(&mut interpreter, "bytes 1099 7"),
        "bytes 00000000000000"
    );
}

#[test]
fn last_msn_is_followed_by_zero() {
    let mut device = Device::default();
    let part = Part { start: 0, end: 16 };
    let empty = Part { start: 16, end: 16 };
    device.open(16, [part, empty, empty, empty]).unwrap();
    device.open_stream(0, false).unwrap();
    device.streams[0].next_msn[0] = u32::MAX;
    let mut store = [0; 16];
    for msn in ["ffffffff", "00000000", "00000001"] {
        device.post(0, 0, 1).unwrap();
        let frame = format!("001241430000000000000000{msn}0000000000000000");
        let answer = device.receive(&mut store, 0, &hex::decode(frame.as_bytes()).unwrap());
        assert!(matches!(answer, Answer::Taken { total: 24, .. }));
    }
    assert_eq!(device.streams[0].next_msn, [2, 1, 1]);
}

#[test]
fn startup_request_whole() {
    let frame = "4d504120494420526571204672616d65400100024142";
    let mut interpreter = Interpreter::default();
    let written = say(&mut interpreter, "startup req 1 0 4142 22");
    assert_eq!(written, format!("wrote 22 {frame}"));
    let read = say(&mut interpreter, &format!("unstartup req {frame}"));
    assert_eq!(read, "startup 22 1 0 4142");
}

#[test]
fn annotated_dumps() {
    let mut first = vec![0; 48];
    first[5..8].copy_from_slice(&[0x2A, 0x41, 0x43]);
    first[0x13] = 1;
    assert_eq!(crc_field(&first), [0x52, 0x23, 0x99, 0x83]);
    let mut second = vec![0; 48];
    second[1..4].copy_from_slice(&[0x2A, 0x41, 0x43]);
    second[0xF] = 2;
    second[0x17] = 0x14;
    assert_eq!(crc_field(&second), [0x84, 0x92, 0x58, 0x98]);
    assert_eq!(crc32c_bitwise(&second).to_le_bytes(), crc_field(&second));
}
