//! What the program says of wrong words and of wrong configurations.

use std::fs;

use crate::support::{folder, run};

/// A configuration that is right; each line of it but the first is changed below.
const RIGHT: [&str; 9] = [
    "store 4096",
    "part 0 0 1024",
    "part 1 1024 2048",
    "part 2 2048 3072",
    "part 3 3072 4096",
    "listen 0 127.0.0.1:0   # a comment",
    "",
    "buffers 1 8 16 0x400",
    "window 17 5 4096 4 2044 write",
];

/// Gives what is said of a configuration on standard error, with status 2.
fn told(lines: &[&str]) -> String {
    let folder = folder();
    let path = folder.join("wrong.conf");
    fs::write(&path, lines.join("\n")).unwrap();
    let output = run(&[path.to_str().unwrap()]);
    fs::remove_dir_all(folder).unwrap();
    assert_eq!(output.status.code(), Some(2), "{lines:?}: {output:?}");
    assert!(output.stdout.is_empty(), "{output:?}");
    String::from_utf8(output.stderr).unwrap()
}

/// A wrong line is told by its number, with what is wrong.
#[test]
fn wrong_lines() {
    for (line, wrong, words) in [
        (1, "store 0", "refused 1: "),
        (1, "store 16777217", "refused 1: "),
        (1, "store", "the line has another form: store LENGTH"),
        (1, "stores 4096", "there is no setting `stores`"),
        (1, "store 4096 0", "another form"),
        (1, "store -1", "`-1` is no number"),
        (1, "store +1", "`+1` is no number"),
        (1, "store 0x", "`0x` is no number"),
        (1, "store 18446744073709551616", "is no number"),
        (2, "part 0 0 4097", "refused 9: "),
        (3, "part 1 1023 2048", "refused 9: "),
        (3, "part 0 1024 2048", "line 2 says this already"),
        (4, "part 4 2048 3072", "`4` is no domain"),
        (5, "part 3 3072 4097", "refused 9: "),
        (6, "listen 0 127.0.0.1", "is no address with a port"),
        (6, "listen 0 localhost:80", "is no address with a port"),
        (7, "listen 0 off", "line 6 says this already"),
        (
            7,
            "crc yes",
            "the line has another form: crc on, or crc off",
        ),
        (7, "startup 0", "`startup` takes 1 to 3600 seconds"),
        (7, "ird 16383", "`16383` is not from 0 to 16382"),
        (
            7,
            "kinds send receive",
            "`receive` is none of send, write and read",
        ),
        (7, "window 64 5 0 4 0 write", "refused 1: "),
        (7, "window 17 6 0 4 1536 write\n", "line 10: refused 6: "),
        (8, "buffers 1 9 16 1024", "refused 10: "),
        (8, "buffers 1 8 0 1024", "refused 9: "),
        (8, "buffers 1 8 16 1000", "refused 9: "),
        (8, "buffers 1 8 32 1025", "refused 9: "),
        (8, "buffers 1 8 31 1054", "refused 19: "),
        (8, "buffers 1 8 18446744073709551615 1024", "refused 9: "),
        (9, "window 17 0 4096 4 2044 write", "refused 1: "),
        (9, "window 17 5 4096 5 2044 write", "refused 9: "),
        (
            9,
            "window 17 5 4096 4 2044 rw",
            "`rw` is none of read, write and both",
        ),
    ] {
        let mut lines = RIGHT;
        lines[line - 1] = wrong;
        let said = told(&lines);
        let number = match wrong.ends_with('\n') {
            true => String::new(),
            false => format!(", line {line}: "),
        };
        assert!(
            said.contains(&number) && said.contains(words),
            "{wrong}: {said}"
        );
    }
}

/// What is missing is told, and a file that cannot be read.
#[test]
fn missing() {
    assert!(told(&["crc on"]).contains("there is no line `store LENGTH`"));
    assert!(told(&[]).contains("there is no line `store LENGTH`"));
    assert!(told(&["store 4096", "part 0 0 4096"]).contains("for some domains alone"));
    for words in [
        &["/no/such/file"][..],
        &["/"],
        &[],
        &["--status"],
        &["--status", "0"],
        &["--nothing"],
        &["a", "b"],
        &["pack"],
        &["pack", "127.0.0.1:1", "file"],
        &["pack", "127.0.0.1:1", "file", "--send", "--revision", "3"],
        &[
            "pack",
            "127.0.0.1:1",
            "file",
            "--send",
            "--peer",
            "--revision",
            "1",
        ],
        &["measure", "0"],
    ] {
        let output = run(words);
        assert_eq!(output.status.code(), Some(2), "{words:?}: {output:?}");
        assert!(!output.stderr.is_empty() && output.stdout.is_empty());
    }
}

/// The help is some twenty lines, and is what the wrapper at the root writes.
#[test]
fn help() {
    let output = run(&["--help"]);
    assert_eq!(output.status.code(), Some(0));
    let lines = String::from_utf8(output.stdout).unwrap();
    assert!((15..=20).contains(&lines.lines().count()), "{lines}");
    let path = concat!(env!("CARGO_MANIFEST_DIR"), "/src/bin/serve/help.txt");
    assert_eq!(fs::read_to_string(path).unwrap(), lines);
}

/// The example is right: what fails is that its store is not there to be loaded.
#[test]
fn example() {
    let path = concat!(env!("CARGO_MANIFEST_DIR"), "/../examples/serve.conf");
    let output = run(&[path, "--load", "/no/such/file"]);
    assert_eq!(output.status.code(), Some(1), "{output:?}");
    let said = String::from_utf8(output.stderr).unwrap();
    assert!(said.contains("cannot read /no/such/file"), "{said}");
}
