//! The lines of a script as such, and the local refusals.

use oracle::script::{run, Interpreter};

/// The STag, queue and MSN of a stream's first Send, and what stands for the pad and the CRC where it is off.
const SEND: &str = "000000000000000000000001";
const NO_CRC: &str = "00000000000000";

/// Runs a script on a new program and gives what it writes.
fn replay(script: &[u8]) -> String {
    let mut output = Vec::new();
    run(script, &mut output, |_, _| ()).unwrap();
    String::from_utf8(output).unwrap()
}

/// Runs each line and compares its answer.
fn check(lines: &[(&str, &str)]) {
    let mut interpreter = Interpreter::default();
    for (line, answer) in lines {
        let given = interpreter.run_line(line.as_bytes()).unwrap_or_default();
        assert_eq!(&given, answer, "{line}");
    }
}

#[test]
fn lines_that_write_nothing_and_bad_lines() {
    assert_eq!(replay(b""), "");
    assert_eq!(replay(b"\n\n   \n# word\n#"), "");
    assert_eq!(replay(b"live 0\nlive 1"), "live 0\nlive 0\n");
    assert_eq!(replay(b"  live   0  \n"), "live 0\n");
    let bad: [&[u8]; 12] = [
        b" # word",
        b"\t",
        b"live 0\r",
        b"live\t0",
        b"LIVE 0",
        b"live +0",
        b"live",
        b"live 0 0",
        b"live 18446744073709551616",
        b"fpdu 0 9",
        b"fpdu 0g 9",
        b"live \xFF",
    ];
    for line in bad {
        assert_eq!(replay(line), "bad\n", "{line:?}");
    }
    check(&[
        ("live 18446744073709551615", "refused 1"),
        ("live 0000000000000000000000000003", "live 0"),
    ]);
}

#[test]
fn length_of_a_line() {
    let mut line = b"live 0".to_vec();
    line.resize(65_536, b' ');
    assert_eq!(replay(&line), "live 0\n");
    line.push(b'\n');
    assert_eq!(replay(&line), "live 0\n");
    line.insert(0, b' ');
    assert_eq!(replay(&line), "bad\n");
    assert_eq!(replay(&[b'#'; 65_536]), "");
    assert_eq!(replay(&[b'#'; 65_537]), "bad\n");
}

#[test]
fn openings() {
    check(&[
        ("stream 0 off", "done"),
        (
            "receive 0 000ec14000000000000000000000000000000000",
            "taken 20",
        ),
        ("open 0 0 0 0 0 0 0 0 0", "refused 1"),
        ("close 0", "refused 3"),
        ("open 16777217 9 0 0 0 0 0 0 0", "refused 1"),
        ("open 16777216 0 0 0 0 0 0 0 16777216", "opened"),
        ("stream 0 off", "done"),
        ("receive 0 -", "refused 2"),
        ("open 8 0 2 1 4 4 6 6 8", "refused 9"),
        ("open 8 0 2 2 4 4 6 6 9", "refused 9"),
        ("open 8 2 1 2 4 4 6 6 8", "refused 9"),
        ("open 8 8 8 2 4 4 6 6 8", "refused 9"),
        ("stream 0 off", "done"),
        ("receive 0 -", "refused 2"),
        ("receive 0 - 0", "wait 2"),
        ("receive 0 - 1048577", "bad"),
        ("open 8 0 0 2 4 4 4 6 8", "opened"),
        ("stream 0 off", "done"),
        ("receive 16 - 1", "refused 1"),
        ("receive 1 - 1", "refused 2"),
        ("receive 1 -", "refused 3"),
        ("open 8 0 2 2 4 4 6 6", "bad"),
    ]);
}

#[test]
fn windows_and_buffers() {
    check(&[
        ("open 64 0 16 16 32 32 48 48 64", "opened"),
        ("register 64 1 0 1 0 1", "refused 1"),
        ("register 0 0 0 1 0 1", "refused 1"),
        ("register 0 256 0 1 0 1", "refused 1"),
        ("register 0 1 0 1 0 4", "refused 1"),
        ("register 0 1 0 0 0 1", "refused 9"),
        ("register 0 1 0 17 0 1", "refused 9"),
        ("register 16 1 0 1 15 1", "refused 9"),
        ("register 0 1 18446744073709551600 16 0 1", "refused 9"),
        ("register 0 1 18446744073709551599 16 0 1", "done"),
        ("register 0 1 0 0 0 1", "refused 6"),
        ("free 0", "free 1"),
        ("drop 0", "done"),
        ("drop 0", "refused 7"),
        ("register 0 1 0 0 0 1", "refused 8"),
        ("register 0 2 0 15 0 1", "done"),
        ("live 0", "live 1"),
        ("live 4", "refused 1"),
        ("post 0 0 1", "refused 3"),
        ("take 0", "refused 3"),
        ("stream 0 on", "done"),
        ("stream 0 on", "refused 4"),
        ("take 0", "refused 11"),
        ("post 0 0 0", "refused 9"),
        ("post 0 15 2", "refused 9"),
        ("post 0 15 1", "done"),
        ("receive 0 2001", "refused 20 1/0/00"),
        ("post 0 0 0", "refused 5"),
        ("take 0", "refused 5"),
        ("stream 0 on", "refused 4"),
        ("close 0", "closed 1 0"),
    ]);
}

#[test]
fn two_writers_on_one_spot() {
    let send = |last: u8, mo: u8| format!("receive 0 0013{last:02x}43{}{mo:08x}ff{}", SEND, NO_CRC);
    let (goes_on, ends) = (send(0x01, 0), send(0x41, 1));
    check(&[
        ("open 64 0 16 16 32 32 48 48 64", "opened"),
        ("stream 0 off", "done"),
        ("stream 3 off", "done"),
        ("register 0 1 0 4 4 1", "done"),
        // A byte at either end, all of it, and next to it.
        ("register 1 1 0 2 3 1", "refused 19"),
        ("register 1 1 0 2 7 3", "refused 19"),
        ("register 1 1 0 16 0 3", "refused 19"),
        ("register 1 1 0 1 5 1", "refused 19"),
        ("register 1 1 0 4 0 1", "done"),
        ("post 0 7 1", "refused 19"),
        ("post 0 8 2", "done"),
        // A window with the read right alone; and one with both over it.
        ("register 2 1 0 16 0 2", "done"),
        ("register 3 1 0 2 12 3", "done"),
        // Buffers, on any stream of the domain, and the one in fill.
        ("post 0 9 1", "refused 19"),
        ("post 3 7 2", "refused 19"),
        ("register 4 1 0 1 9 1", "refused 19"),
        (&goes_on, "taken 28"),
        ("post 3 8 1", "refused 19"),
        (&ends, "taken 28 send 8 2 3"),
        ("post 3 8 1", "done"),
        // An ended stream keeps its buffers until close.
        ("receive 3 2001", "refused 20 1/0/00"),
        ("post 0 8 1", "refused 19"),
        ("close 3", "closed 1 0"),
        ("post 0 8 1", "done"),
        // A dead window has no place.
        ("drop 0", "done"),
        ("post 0 4 4", "done"),
        // The other refusals come first.
        ("register 4 1 0 1 4 4", "refused 1"),
        ("register 1 2 0 1 4 1", "refused 6"),
        ("register 0 1 0 1 4 1", "refused 8"),
        ("register 4 1 18446744073709551615 1 4 1", "refused 9"),
        ("post 3 4 1", "refused 3"),
        ("post 0 4 13", "refused 9"),
        ("live 0", "live 3"),
        ("free 0", "free 0"),
        // Another domain's places are its own.
        ("stream 4 off", "done"),
        ("register 16 1 0 4 20 1", "done"),
        ("post 4 24 2", "done"),
        ("close 0", "closed 2 0"),
    ]);
}

#[test]
fn a_ninth_buffer_is_refused_for_the_eight() {
    let mut lines = vec![
        (String::from("open 64 0 64 64 64 64 64 64 64"), "opened"),
        (String::from("stream 0 off"), "done"),
    ];
    lines.extend((0..8).map(|place| (format!("post 0 {place} 1"), "done")));
    lines.push((String::from("post 0 0 1"), "refused 10"));
    lines.push((String::from("stream 1 off"), "done"));
    lines.push((String::from("post 1 0 1"), "refused 19"));
    let lines: Vec<(&str, &str)> = lines
        .iter()
        .map(|(line, answer)| (&line[..], *answer))
        .collect();
    check(&lines);
}

#[test]
fn frames() {
    check(&[
        ("fpdu - 8", "wrote 8 00000000c74b6748"),
        ("fpdu - 7", "refused 13"),
        ("unframe on 00000000c74b6748", "ulpdu 8 -"),
        ("unframe on 0000000048 674bc7", "bad"),
        ("unframe on 0000000048674bc7", "refused 21"),
        ("unframe off 0000000048674bc7ff", "ulpdu 8 -"),
        ("unframe off 2001", "refused 20"),
        ("unframe off 2000", "wait 8200"),
        ("unframe off 1fff", "wait 8200"),
        ("unframe off 0801", "wait 2056"),
        ("unframe off 0800", "wait 2056"),
        ("startup req 0 1 - 0", "refused 1"),
        ("startup rep 0 1 - 19", "refused 13"),
        (
            "startup rep 0 1 - 20",
            "wrote 20 4d504120494420526570204672616d6520010000",
        ),
        (
            "unstartup rep 4d504120494420526570204672616d6520010000",
            "startup 20 0 1 -",
        ),
        (
            "unstartup req 4d504120494420526571204672616d653f010000",
            "startup 20 0 0 -",
        ),
        (
            "unstartup req 4d504120494420526571204672616d65a0020000",
            "refused 14",
        ),
        (
            "unstartup req 4d504120494420526571204672616d65a0010200",
            "refused 15",
        ),
        (
            "unstartup req 4d504120494420526571204672616d6500010200",
            "wait 532",
        ),
        (
            "unstartup req 4d504120494420526571204672616d6500010201",
            "refused 14",
        ),
    ]);
}

#[test]
fn startups_of_revision_2() {
    let frame = |flags: &str, rest: &str| format!("4d504120494420526570204672616d65{flags}{rest}");
    let without = frame("00", "02000141");
    let with = frame("70", "020005ffff7ffe41");
    let waits = format!("unstartup2 rep {}", &with[..40]);
    let old = frame("10", "010000");
    check(&[
        ("startup2 rep 0 0 41 21", &format!("wrote 21 {without}")),
        (&format!("unstartup2 rep {without}"), "startup2 21 0 0 41"),
        (&format!("unstartup rep {without}"), "refused 14"),
        (
            "startup2 rep 1 1 1 16383 16382 5 41 25",
            &format!("wrote 25 {with}"),
        ),
        (
            &format!("unstartup2 rep {with}"),
            "startup2 25 1 1 1 16383 16382 5 41",
        ),
        (&format!("unstartup2 req {with}"), "refused 14"),
        (&waits, "wait 25"),
        (&format!("unstartup2 rep {old}"), "startup 20 0 0 -"),
        ("unstartup2 rep 00", "wait 20"),
        // R of a request is not looked at, nor are the reserved bits.
        (
            "unstartup2 req 4d504120494420526571204672616d653f02000400010002",
            "startup2 24 0 0 0 1 2 0 -",
        ),
        // Without A the kinds are neither written nor read.
        (
            "startup2 rep 0 0 0 1 2 7 - 24",
            &format!("wrote 24 {}", frame("10", "02000400010002")),
        ),
        (
            &format!("unstartup2 rep {}", frame("10", "0200044001c002")),
            "startup2 24 0 0 0 1 2 0 -",
        ),
        (
            &format!("unstartup2 rep {}", frame("90", "020003")),
            "refused 14",
        ),
        (
            &format!("unstartup2 rep {}", frame("90", "020004")),
            "refused 15",
        ),
        ("startup2 req 0 1 - 20", "refused 1"),
        ("startup2 req 0 0 0 1 2 8 - 24", "refused 1"),
        ("startup2 req 0 0 0 16384 2 7 - 24", "refused 1"),
        ("startup2 req 0 0 0 1 2 7 - 23", "refused 13"),
        ("startup2 req 0 0 2 1 2 7 - 24", "bad"),
        ("startup2 req 0 0 0 1 2 - 24", "bad"),
        ("startup2 req 0 0 0 1 2 7 0 - 24", "bad"),
        ("unstartup2 -", "bad"),
    ]);
    for (fields, most) in [("", 512), ("1 2 3 4 ", 508)] {
        let line = |length: usize| format!("startup2 rep 0 0 {fields}{} 531", "00".repeat(length));
        check(&[(&line(most), "refused 13"), (&line(most + 1), "refused 12")]);
    }
}

#[test]
fn agreements() {
    check(&[
        ("agree 8 8 7 0 3 5 6", "agreed 0 8 3 0"),
        ("agree 8 2 3 1 3 5 7", "agreed 1 8 2 2"),
        ("agree 4 8 7 0 3 5 0", "refused 40"),
        ("agree 5 8 7 1 3 5 0", "refused 41"),
        ("agree 4 8 7 1 3 5 0", "refused 40"),
        ("agree 4 8 8 1 3 5 0", "refused 1"),
        ("agree 0 8 7 0 16383 16383 0", "agreed 0 16383 16383 0"),
        ("agree 16383 16383 7 0 0 16382 0", "agreed 0 16383 0 0"),
        ("agree 1 1 7 2 1 1 0", "bad"),
        ("agree 1 1 7 0 1 1", "bad"),
        ("agree 1 1 7 0 1 1 0 0", "bad"),
    ]);
}

#[test]
fn crcs() {
    check(&[
        ("crc 313233343536373839", "crc e3069283"),
        ("crc -", "crc 00000000"),
        ("crc 31323334", "crc f63af4ee"),
        ("crc 3536373839", "crc 83b565d8"),
        ("crc f63af4ee 3536373839", "crc e3069283"),
        ("crc F63AF4EE -", "crc f63af4ee"),
        ("join F63AF4EE 83b565d8 5", "crc e3069283"),
        ("join f63af4ee 83b565d8 4294967296", "bad"),
        ("join f63af4ee 83b565d 5", "bad"),
        ("join f63af4ee 083b565d8 5", "bad"),
        ("crc - 31", "bad"),
        ("crc 00000000 31 -", "bad"),
    ]);
}
