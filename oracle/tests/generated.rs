//! The random scripts: the same for the same seed, and reaching every answer.

use oracle::command::MAX_LINE;
use oracle::generate::{frames, messages, nights};
use oracle::hex;
use oracle::refusal::FAULTS;
use oracle::script::run;
use oracle::state::{DOMAINS, STREAMS_PER_DOMAIN};
use oracle::tally::{refusals, Tally};

/// Counts the answers to a script.
fn tally(script: &[u8]) -> Tally {
    let mut tally = Tally::default();
    run(script, std::io::sink(), |line, answer| {
        tally.add(line, answer)
    })
    .unwrap();
    tally
}

/// Writes a script of frames.
fn frame_script(seed: u64, count: u64) -> Vec<u8> {
    let mut script = Vec::new();
    frames::write_script(seed, count, &mut script).unwrap();
    script
}

/// Writes a script of a night.
fn night_script(seed: u64, count: u64) -> Vec<u8> {
    let mut script = Vec::new();
    nights::write_script(seed, count, &mut script).unwrap();
    script
}

/// Writes a script of messages.
fn message_script(seed: u64, count: u64) -> Vec<u8> {
    let mut script = Vec::new();
    messages::write_script(seed, count, &mut script).unwrap();
    script
}

#[test]
fn messages_reach_every_answer() {
    let script = message_script(7, 20_000);
    assert!(script == message_script(7, 20_000));
    assert_eq!(script.iter().filter(|&&byte| byte == b'\n').count(), 20_000);
    assert!(script.len() < 15_000_000);
    let tally = tally(&script);
    for (command, kinds) in [
        ("message", &["done", "refused 1", "refused 12"][..]),
        ("segment", &["wrote", "end", "refused 13"]),
        ("receive", &["taken", "taken send", "taken send stag"]),
        ("offer", &["took", "took taken", "took taken send"]),
        ("-", &["bad"]),
    ] {
        for kind in kinds {
            assert!(tally.count(command, kind) > 50, "{command}: {kind}");
        }
    }
}

#[test]
fn frames_reach_every_answer() {
    let script = frame_script(7, 20_000);
    assert!(script == frame_script(7, 20_000));
    assert_eq!(script.iter().filter(|&&byte| byte == b'\n').count(), 20_000);
    assert!(script.len() < 15_000_000);
    let tally = tally(&script);
    for (command, kinds) in [
        ("fpdu", &["wrote", "refused 12", "refused 13"][..]),
        ("unframe", &["ulpdu", "wait", "refused 20", "refused 21"]),
        (
            "startup",
            &["wrote", "refused 1", "refused 12", "refused 13"],
        ),
        (
            "unstartup",
            &["startup", "wait", "refused 14", "refused 15"],
        ),
        (
            "startup2",
            &["wrote", "refused 1", "refused 12", "refused 13"],
        ),
        (
            "unstartup2",
            &["startup", "startup2", "wait", "refused 14", "refused 15"],
        ),
        (
            "agree",
            &["agreed", "refused 1", "refused 40", "refused 41"],
        ),
        ("crc", &["crc"]),
        ("join", &["crc"]),
        ("-", &["bad"]),
    ] {
        for kind in kinds {
            assert!(tally.count(command, kind) > 50, "{command}: {kind}");
        }
    }
}

#[test]
fn nights_reach_every_answer() {
    let script = night_script(7, 40_000);
    assert!(script == night_script(7, 40_000));
    assert_eq!(script.iter().filter(|&&byte| byte == b'\n').count(), 40_000);
    let tally = tally(&script);
    for kind in ["wait", "taken", "taken send", "taken send stag"] {
        assert!(tally.count("receive", kind) > 100, "{kind}");
    }
    assert!(tally.count("receive", "taken terminate") > 100);
    for kind in ["took", "took taken", "took taken send"] {
        assert!(tally.count("offer", kind) > 300, "{kind}");
    }
    for kind in ["took taken send stag", "took taken terminate"] {
        assert!(tally.count("offer", kind) > 50, "{kind}");
    }
    assert!(tally.count("held", "held") > 500);
    assert!(tally.count("receive", "refused 16") > 50);
    for number in [1, 2, 3, 5] {
        let kind = format!("refused {number}");
        assert!(tally.count("offer", &kind) > 20, "{kind}");
    }
    for command in ["register", "post"] {
        assert!(tally.count(command, "done") > 1000, "{command}");
        assert!(tally.count(command, "refused 19") > 50, "{command}");
    }
    let stateless: Vec<String> = (12..=15)
        .chain(40..=41)
        .map(|number| format!("refused {number}"))
        .collect();
    for kind in refusals().iter().filter(|kind| !stateless.contains(kind)) {
        assert!(tally.count_all(kind) > 5, "{kind}");
    }
}

#[test]
fn every_night_keeps_all_four_domains_busy() {
    for seed in 1..=200 {
        let mut taken = [0; DOMAINS];
        run(
            &night_script(seed, 500)[..],
            std::io::sink(),
            |line, answer| {
                let words: Vec<&[u8]> = line.split(|&byte| byte == b' ').collect();
                let called = words[0] == b"receive" || words[0] == b"offer";
                if called && answer.contains("taken") {
                    let stream: usize = String::from_utf8_lossy(words[1]).parse().unwrap();
                    taken[stream / STREAMS_PER_DOMAIN] += 1;
                }
            },
        )
        .unwrap();
        assert!(taken.iter().all(|&count| count > 0), "{seed}: {taken:?}");
    }
}

/// Counts the lines of some scripts, each run on a new program, whose answers fit.
fn answered(scripts: &[Vec<u8>], fits: fn(&str) -> bool) -> usize {
    let mut count = 0;
    for script in scripts {
        run(&script[..], std::io::sink(), |_, answer| {
            count += usize::from(fits(answer));
        })
        .unwrap();
    }
    count
}

#[test]
fn the_longest_frames_are_reached() {
    let frames = [frame_script(7, 20_000)];
    assert!(answered(&frames, |answer| answer.starts_with("wrote 8200 ")) > 20);
    assert!(answered(&frames, |answer| answer.starts_with("ulpdu 8200 ")) > 20);
    let messages = [message_script(7, 20_000)];
    assert!(answered(&messages, |answer| answer.starts_with("wrote 8192 ")) > 20);
    assert!(answered(&messages, |answer| answer == "taken 8200") > 20);
    let nights: Vec<Vec<u8>> = (1..=200).map(|seed| night_script(seed, 500)).collect();
    assert!(answered(&nights, |answer| answer == "taken 8200") > 5);
    assert!(answered(&nights, |answer| answer.contains("taken 8200")) > 40);
    let filled = |answer: &str| answer.contains("taken 8200 send") && answer.contains(" 8174 ");
    assert!(answered(&nights, filled) > 5);
    // Offers that are all held, of more bytes than the longest FPDU had before.
    let held = |answer: &str| {
        let count = answer.strip_prefix("took ").map(str::parse::<usize>);
        matches!(count, Some(Ok(2057..)))
    };
    assert!(answered(&nights, held) > 20);
}

#[test]
fn every_reading_is_reached() {
    let nights: Vec<Vec<u8>> = (1..=200).map(|seed| night_script(seed, 500)).collect();
    assert!(answered(&nights, |answer| answer == "quiet") > 100);
    assert!(answered(&nights, |answer| answer.starts_with("steady ")) > 100);
    assert!(answered(&nights, |answer| answer.starts_with("falling ")) > 100);
}

#[test]
fn every_state_is_reached() {
    let (mut states, mut over, mut bad) = (Vec::new(), 0, 0);
    for seed in 1..=200 {
        let night = night_script(seed, 500);
        run(&night[..], std::io::sink(), |line, answer| {
            let mut words = line.split(|&byte| byte == b' ');
            let asks = words.any(|word| word == b"state");
            over += u64::from(asks && answer == "refused 1");
            bad += u64::from(asks && answer == "bad");
            if answer.starts_with("state") {
                states.push(String::from(answer));
            }
        })
        .unwrap();
    }
    let count = |fits: &dyn Fn(&str) -> bool| states.iter().filter(|state| fits(state)).count();
    assert!(count(&|state| state == "state closed") > 200);
    for name in ["state open ", "state ended ", "state terminated "] {
        assert!(count(&|state| state.starts_with(name)) > 200, "{name}");
        // Where there are both buffers and reads.
        let both = count(&|state| {
            let mut counts = state.rsplit(' ').take(2);
            state.starts_with(name) && counts.all(|count| count != "0")
        });
        assert!(both > 20, "{name}: {both}");
    }
    for fault in FAULTS {
        let name = format!("state ended {fault} ");
        assert!(count(&|state| state.starts_with(&name)) > 0, "{name}");
    }
    assert!(over > 20 && bad > 20, "{over} {bad}");
}

#[test]
fn no_line_of_a_night_is_too_long() {
    for seed in 1..=200 {
        let script = night_script(seed, 500);
        let longest = script.split(|&byte| byte == b'\n').map(<[u8]>::len).max();
        assert!(longest.is_some_and(|length| length <= MAX_LINE), "{seed}");
    }
}

/// Gives the words of each line of some random frames that is a command, with its answer.
fn frame_answers() -> Vec<(Vec<String>, String)> {
    let mut answers = Vec::new();
    for seed in 1..=10 {
        run(
            &frame_script(seed, 4000)[..],
            std::io::sink(),
            |line, answer| {
                let words = String::from_utf8_lossy(line);
                let words = words.split(' ').filter(|word| !word.is_empty());
                let words = words.map(String::from).collect();
                answers.push((words, String::from(answer)));
            },
        )
        .unwrap();
    }
    answers
}

#[test]
fn both_sides_of_each_limit_of_a_startup_are_reached() {
    let answers = frame_answers();
    let count = |command: &str, fits: &dyn Fn(&[&str], &str) -> bool| {
        let same = answers.iter().filter(|(words, answer)| {
            let words: Vec<&str> = words.iter().map(String::as_str).collect();
            words[0] == command && answer != "bad" && fits(&words, answer)
        });
        same.count()
    };
    // The bytes of private data with S and without, the longest and one more.
    for (words, most) in [(10, 508), (6, 512)] {
        for (over, answer) in [(0, "wrote"), (0, "refused 13"), (1, "refused 12")] {
            let fits = |line: &[&str], given: &str| {
                let length = 2 * (most + over);
                line.len() == words && line[words - 2].len() == length && given.starts_with(answer)
            };
            assert!(count("startup2", &fits) > 5, "{words} {over} {answer}");
        }
    }
    // Frames that are read: the flags and the revision, and the length of the private data.
    let header = |line: &[&str], s: u8, revision: u8, length: u16| {
        let bytes = hex::decode(line[2].as_bytes()).unwrap_or_default();
        bytes.len() >= 20
            && bytes[16] & 0x10 == s
            && bytes[17] == revision
            && bytes[18..20] == length.to_be_bytes()
    };
    for (s, revision, length, answer) in [
        (0x10, 2, 3, "refused 14"),
        (0x10, 2, 4, "startup2"),
        (0x10, 2, 4, "wait"),
        (0x10, 2, 4, "refused 15"),
        (0x10, 2, 512, "startup2"),
        (0x10, 2, 513, "refused 14"),
        (0x00, 2, 0, "startup2"),
        (0x00, 2, 3, "startup2"),
        (0x00, 2, 512, "startup2"),
        (0x00, 2, 513, "refused 14"),
        (0x10, 1, 0, "startup"),
        (0x10, 1, 3, "startup"),
        (0x10, 1, 4, "startup"),
        (0x00, 1, 0, "startup"),
        (0x10, 3, 4, "refused 14"),
        (0x00, 0, 0, "refused 14"),
    ] {
        let fits = |line: &[&str], given: &str| {
            let same = given == answer || given.starts_with(&format!("{answer} "));
            same && header(line, s, revision, length)
        };
        let times = count("unstartup2", &fits);
        assert!(times > 2, "{s:02x} {revision} {length} {answer}: {times}");
    }
    // Depths that are compared: equal, one less and one more, and 0x3FFF in each of the four places.
    let number = |word: &str| word.parse::<u64>().unwrap();
    for difference in [-1, 0, 1] {
        let reads = |line: &[&str], given: &str| {
            let apart = i128::from(number(line[1])) - i128::from(number(line[6]));
            let few = given == "refused 40";
            apart == difference && given != "refused 1" && few == (apart < 0)
        };
        assert!(count("agree", &reads) > 50, "IRD {difference}");
        let asks = |line: &[&str], given: &str| {
            let apart = i128::from(number(line[2])) - i128::from(number(line[5]));
            apart == difference && given.starts_with("agreed")
        };
        assert!(count("agree", &asks) > 50, "ORD {difference}");
    }
    for place in [1, 2, 5, 6] {
        let all_ones = |line: &[&str], given: &str| {
            number(line[place]) == 0x3FFF && given.starts_with("agreed")
        };
        assert!(count("agree", &all_ones) > 50, "{place}");
    }
    for kind in ["0", "1", "2", "4"] {
        let fits = |_: &[&str], given: &str| {
            given.starts_with("agreed") && given.split(' ').nth(4) == Some(kind)
        };
        assert!(count("agree", &fits) > 50, "{kind}");
    }
    // A number that its field cannot hold, in each place, the kinds also without A.
    for place in [1, 2, 3, 5, 6, 7] {
        let most = if [3, 7].contains(&place) { 7 } else { 0x3FFF };
        let over = |line: &[&str], given: &str| {
            let others = [1, 2, 3, 5, 6, 7].iter().filter(|&&at| at != place);
            let mut others = others.map(|&at| (at, number(line[at])));
            let fits = |(at, value)| value <= if [3, 7].contains(&at) { 7 } else { 0x3FFF };
            line[4] == "0" && number(line[place]) > most && others.all(fits) && given == "refused 1"
        };
        assert!(count("agree", &over) > 2, "{place}");
    }
}
