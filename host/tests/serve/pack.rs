//! The client against the server.

use std::fs;

use oracle::generate::prng::Prng;

use crate::support::{run, Server};

/// A window and buffers for domain 0.
const CONFIG: &str = "store 1048576
part 0 0 1048576
part 1 1048576 1048576
part 2 1048576 1048576
part 3 1048576 1048576
ord 2
window 0 9 4096 300000 1000 write
buffers 0 8 8192 400000";

/// A file goes out as Writes and as Sends, by each startup, and stands where it should.
#[test]
fn files() {
    let server = Server::start(CONFIG);
    let bytes = Prng::new(3).bytes(30_001);
    let file = server.folder.join("file");
    fs::write(&file, &bytes).unwrap();
    let file = file.to_str().unwrap();
    let address = server.address(0);
    let mut expected = vec![0; 1_048_576];
    let mut count = 0;
    let mut place = 0;
    for startup in [
        &["--revision", "1"][..],
        &["--revision", "1", "--crc"],
        &["--revision", "2", "--ird", "1", "--ord", "8"],
        &["--crc", "--peer"],
    ] {
        for (kind, said) in [
            (
                &["--write", "9", "--size", "7000"][..],
                "5 Writes in 5 FPDUs",
            ),
            (
                &["--write", "0x9", "--limit", "19"],
                "1 Write in 6001 FPDUs",
            ),
            (&["--send", "--limit", "1442"], "8 Sends in 22 FPDUs"),
            (
                &["--send", "--size", "8192", "--repeat", "2"],
                "8 Sends in 14 FPDUs",
            ),
        ] {
            let to = (4096 + place).to_string();
            let words = [&["pack", &address, file, "--to", &to], kind, startup].concat();
            let output = run(&words);
            let text = String::from_utf8_lossy(&output.stdout).into_owned();
            assert!(output.status.success(), "{words:?}: {output:?}");
            // A peer-to-peer connection has an empty Send before it.
            let said = match startup.contains(&"--peer") {
                false => String::from(said),
                true => {
                    let (messages, rest) = said.split_once(' ').unwrap();
                    let (name, fpdus) = rest.split_once(" in ").unwrap();
                    let more = |word: &str| word.parse::<u64>().unwrap() + 1;
                    let name = name.trim_end_matches('s');
                    let fpdus = more(fpdus.split(' ').next().unwrap());
                    format!("{} {name}s in {fpdus} FPDUs", more(messages))
                }
            };
            assert!(text.contains(&said), "{words:?}: {text}");
            assert!(text.contains(" MB a second"), "{text}");
            count += 1;
            server.wait_for(&format!("#{count} closed, by the peer"));
            if kind[0] == "--write" {
                let start = 1000 + place;
                expected[start..start + bytes.len()].copy_from_slice(&bytes);
                place += 33_000;
            }
        }
    }
    let log = server.log();
    let sends = log.iter().filter(|line| line.contains(": Send of "));
    // Each startup has two times of Sends; two connections of the four kinds each are peer to peer.
    assert_eq!(sends.count(), 4 * (8 + 8) + 4);
    let store = server.quit();
    assert!(store[..400_000] == expected[..400_000]);
    // The last Sends began with an empty one, so that the file's eight messages are in the buffers from the second on.
    let message = |at: usize| &bytes[8192 * at..(8192 * (at + 1)).min(bytes.len())];
    for (buffer, at) in [
        (1, 0),
        (2, 1),
        (3, 2),
        (4, 3),
        (5, 0),
        (6, 1),
        (7, 2),
        (0, 3),
    ] {
        let start = 400_000 + 8192 * buffer;
        let message = message(at);
        assert!(
            store[start..start + message.len()] == *message,
            "buffer {buffer}"
        );
    }
}

/// What the server refuses or declines, the client tells, with status 1.
#[test]
fn refused() {
    let server = Server::start(CONFIG);
    let file = server.folder.join("file");
    fs::write(&file, [1; 9000]).unwrap();
    let file = file.to_str().unwrap();
    let address = server.address(0);
    for (words, said) in [
        (
            &["--write", "9", "--to", "0"][..],
            "the peer has refused what was sent",
        ),
        (
            &["--write", "9", "--to", "300000"],
            "the peer has refused what was sent",
        ),
        (
            &["--send", "--size", "9000"],
            "the peer has refused what was sent",
        ),
        (&["--send", "--ord", "9"], "the peer declines: 40: "),
        (&["--send", "--limit", "18"], "refused 1: "),
        (&["--send", "--limit", "8193"], "refused 12: "),
    ] {
        let output = run(&[&["pack", &address, file], words].concat());
        assert_eq!(output.status.code(), Some(1), "{words:?}: {output:?}");
        let text = String::from_utf8_lossy(&output.stderr).into_owned();
        assert!(text.contains(said), "{words:?}: {text}");
    }
    let gone = run(&["pack", &address, "/no/such/file", "--send"]);
    assert_eq!(gone.status.code(), Some(1));
    server.quit();
    let nobody = run(&["pack", &address, file, "--send"]);
    assert_eq!(nobody.status.code(), Some(1));
}
