//! The stored scripts, whose answers were worked out from the paper.

use std::fs;
use std::path::Path;

use oracle::command::{parse, Command, Line};
use oracle::script::STORE;
use rnic::Device;

use crate::support::Program;

/// Says whether a line is of a kind that needs no device: on frames, which the C interface does not have, on CRCs,
/// or on messages.
fn needs_no_device(line: &[u8]) -> bool {
    matches!(
        parse(line),
        Line::Command(
            Command::Fpdu { .. }
                | Command::Unframe { .. }
                | Command::Startup { .. }
                | Command::Unstartup { .. }
                | Command::Startup2 { .. }
                | Command::Unstartup2 { .. }
                | Command::Agree { .. }
                | Command::Crc { .. }
                | Command::Join { .. }
                | Command::MessageWrite { .. }
                | Command::MessageSend { .. }
                | Command::Segment { .. }
        )
    )
}

/// Runs a script and compares each answer with the stored one; gives how many were compared.
fn compare(script: &Path) -> usize {
    let text = fs::read(script).unwrap();
    let stored = fs::read_to_string(script.with_extension("answers")).unwrap();
    let mut answers = stored.lines();
    let mut program = Program::new(Device::new(), STORE);
    let mut compared = 0;
    for line in text.split(|&byte| byte == b'\n') {
        if needs_no_device(line) {
            answers.next().expect("an answer to each command");
        } else if let Some(answer) = program.run_line(line) {
            let line = String::from_utf8_lossy(line);
            let script = script.display();
            assert_eq!(Some(answer.as_str()), answers.next(), "{script}: {line}");
            compared += 1;
        }
    }
    assert_eq!(answers.next(), None, "{}", script.display());
    compared
}

#[test]
fn stored_scripts() {
    let folder = Path::new(env!("CARGO_MANIFEST_DIR")).join("../scripts");
    let files = fs::read_dir(folder)
        .unwrap()
        .map(|entry| entry.unwrap().path());
    let scripts = files.filter(|path| path.extension().is_some_and(|end| end == "txt"));
    let compared: usize = scripts.map(|script| compare(&script)).sum();
    assert!(compared > 2000, "{compared} answers compared");
}
