//! One domain's calls among those of two different nights: the answers are the same, and a device in which another's
//! call reaches the domain is found out.

use oracle::generate::interleave::{write_script, OWN};
use oracle::script::{Interpreter, STORE};
use oracle::state::{Condition, DOMAINS, STREAMS, STREAMS_PER_DOMAIN, WINDOWS_PER_DOMAIN};

/// A flaw of a device: what it does and answers in place of this answer, the line's words being at hand.
type Flaw = fn(&mut Interpreter, &[&str], String) -> String;

/// Gives the lines of a script, and of each whether it is the domain's own.
fn lines(seed: u64, domain: usize, others: u64) -> Vec<(bool, String)> {
    let mut script = Vec::new();
    write_script(seed, domain, 200, others, &mut script).unwrap();
    let text = String::from_utf8(script).unwrap();
    let mut own = false;
    let mut lines = Vec::new();
    for line in text.lines() {
        if line != OWN {
            lines.push((own, String::from(line)));
        }
        own = line == OWN;
    }
    lines
}

/// Runs a script on a device with this flaw, and gives the answers to the domain's own calls.
fn own_answers(lines: &[(bool, String)], flaw: Flaw) -> Vec<String> {
    let mut interpreter = Interpreter::default();
    let mut answers = Vec::new();
    for (own, line) in lines {
        let answer = interpreter.run_line(line.as_bytes()).unwrap();
        let words: Vec<&str> = line.split(' ').collect();
        let answer = flaw(&mut interpreter, &words, answer);
        if *own {
            answers.push(answer);
        }
    }
    answers
}

/// Counts the trials, of three for each domain, in which the domain's answers differ between two nights.
fn found(flaw: Flaw) -> usize {
    let trials = (0..DOMAINS).flat_map(|domain| (1..=3).map(move |seed| (seed, domain)));
    let differ = |&(seed, domain): &(u64, usize)| {
        let [first, second] = [1, 2].map(|others| own_answers(&lines(seed, domain, others), flaw));
        first != second
    };
    trials.filter(differ).count()
}

/// Says whether a line receives or offers bytes.
fn brings_bytes(words: &[&str]) -> bool {
    words[0] == "receive" || words[0] == "offer"
}

/// Gives the owner of the stream that a receive or an offer names, where an FPDU was taken.
fn taken_for(words: &[&str], answer: &str) -> Option<usize> {
    let stream: usize = words.get(1)?.parse().ok()?;
    (brings_bytes(words) && answer.contains("taken")).then_some(stream / STREAMS_PER_DOMAIN)
}

/// Gives the stream of the next domain that has the same place in it as the one that a line names.
fn neighbour(words: &[&str]) -> Option<usize> {
    let stream: usize = words.get(1)?.parse().ok()?;
    (stream < STREAMS).then_some((stream + STREAMS_PER_DOMAIN) % STREAMS)
}

/// Answers as it should.
fn sound(_: &mut Interpreter, _: &[&str], answer: String) -> String {
    answer
}

/// Asks whether a window is live before it asks whose it is.
fn live_before_whose(interpreter: &mut Interpreter, words: &[&str], answer: String) -> String {
    let stag = words.get(2).and_then(|bytes| bytes.get(8..16));
    let stag = stag.and_then(|digits| u32::from_str_radix(digits, 16).ok());
    let Some(stag) = stag.filter(|_| answer.starts_with("refused 24")) else {
        return answer;
    };
    let windows = &interpreter.device.windows;
    let window = windows
        .get((stag >> 8) as usize)
        .copied()
        .unwrap_or_default();
    match window.live && window.key == stag as u8 {
        true => answer,
        false => String::from("refused 25 1/1/00"),
    }
}

/// Picks window numbers from one common free list.
fn common_free_list(interpreter: &mut Interpreter, words: &[&str], answer: String) -> String {
    if !answer.starts_with("free") || words[0] != "free" {
        return answer;
    }
    let windows = &interpreter.device.windows;
    let live = |slot: &usize| (0..DOMAINS).any(|d| windows[d * WINDOWS_PER_DOMAIN + slot].live);
    let slot = (0..WINDOWS_PER_DOMAIN).find(|slot| !live(slot));
    format!("free {}", slot.unwrap_or(WINDOWS_PER_DOMAIN))
}

/// Writes one byte past the part for each FPDU taken.
fn byte_past_the_part(interpreter: &mut Interpreter, words: &[&str], answer: String) -> String {
    if let Some(domain) = taken_for(words, &answer) {
        let past = interpreter.device.parts[domain].end as usize;
        if past < STORE {
            interpreter.store[past] ^= 0xFF;
        }
    }
    answer
}

/// Looks for a spot's other writers among all domains' buffers, their places counted from the start of the part.
fn spots_of_all_domains(interpreter: &mut Interpreter, words: &[&str], answer: String) -> String {
    if words[0] != "post" || answer != "done" {
        return answer;
    }
    let device = &interpreter.device;
    let owner = |stream: usize| stream / STREAMS_PER_DOMAIN;
    let offset = |stream: usize, start: u64| start - device.parts[owner(stream)].start;
    let (stream, start) = (words[1].parse().unwrap(), words[2].parse().unwrap());
    let same = |other: usize| {
        let mut starts = device.streams[other].buffers.iter().map(|b| b.start);
        starts.any(|place| offset(other, place) == offset(stream, start))
    };
    let others = (0..STREAMS).filter(|&other| owner(other) != owner(stream));
    match others.into_iter().any(same) {
        true => String::from("refused 19"),
        false => answer,
    }
}

/// Ends the next domain's stream too where a stream ends.
fn ends_another_stream(interpreter: &mut Interpreter, words: &[&str], answer: String) -> String {
    if brings_bytes(words) && answer.contains('/') {
        let stream: usize = words[1].parse().unwrap();
        let other = &mut interpreter.device.streams[(stream + STREAMS_PER_DOMAIN) % STREAMS];
        if other.condition == Condition::Open {
            other.condition = Condition::Terminated;
        }
    }
    answer
}

/// Writes over a byte that the next domain's stream holds, where a stream holds what it is offered.
fn holds_in_anothers_room(interpreter: &mut Interpreter, words: &[&str], answer: String) -> String {
    if words[0] == "offer" && answer.starts_with("took") && !answer.contains("taken") {
        let other = neighbour(words).map(|other| &mut interpreter.device.streams[other]);
        if let Some(byte) = other.and_then(|other| other.held.last_mut()) {
            *byte ^= 0xFF;
        }
    }
    answer
}

/// Empties what the next domain's stream holds too, where a stream is closed.
fn close_empties_another(interpreter: &mut Interpreter, words: &[&str], answer: String) -> String {
    if words[0] == "close" && answer.starts_with("closed") {
        if let Some(other) = neighbour(words) {
            interpreter.device.streams[other].held.clear();
        }
    }
    answer
}

/// Refuses receive while a stream of any domain holds bytes.
fn any_stream_holds(interpreter: &mut Interpreter, words: &[&str], answer: String) -> String {
    let mut streams = interpreter.device.streams.iter();
    match words[0] == "receive" && streams.any(|stream| !stream.held.is_empty()) {
        true => String::from("refused 16"),
        false => answer,
    }
}

/// Gives the domain that a tick names.
fn ticked(words: &[&str], answer: &str) -> Option<usize> {
    (words[0] == "tick" && answer == "done").then(|| words[1].parse().unwrap())
}

/// Counts what is placed for the next domain too.
fn counts_for_another(interpreter: &mut Interpreter, words: &[&str], answer: String) -> String {
    if let Some(domain) = taken_for(words, &answer) {
        interpreter.device.placed[(domain + 1) % DOMAINS] += 1;
    }
    answer
}

/// Clears every domain's count at a tick.
fn tick_clears_all(interpreter: &mut Interpreter, words: &[&str], answer: String) -> String {
    if ticked(words, &answer).is_some() {
        interpreter.device.placed = [0; DOMAINS];
    }
    answer
}

/// Ticks the next domain's gauge too.
fn tick_moves_another(interpreter: &mut Interpreter, words: &[&str], answer: String) -> String {
    if let Some(domain) = ticked(words, &answer) {
        interpreter.device.gauges[(domain + 1) % DOMAINS].take(0);
    }
    answer
}

/// Counts what waits on the next domain's stream too, where a stream's state is asked for.
fn state_counts_anothers(interpreter: &mut Interpreter, words: &[&str], answer: String) -> String {
    let other = neighbour(words).filter(|_| answer.starts_with("state open"));
    let Some(other) = other.map(|other| &interpreter.device.streams[other]) else {
        return answer;
    };
    let stream: usize = words[1].parse().unwrap();
    let (buffers, reads) = interpreter.device.streams[stream].waiting();
    let (more, others) = other.waiting();
    format!("state open {} {}", buffers + more, reads + others)
}

/// Takes a read of the next domain's stream, where a stream's state is asked for.
fn state_takes_anothers_read(
    interpreter: &mut Interpreter,
    words: &[&str],
    answer: String,
) -> String {
    if words[0] == "state" {
        if let Some(other) = neighbour(words) {
            interpreter.device.streams[other].reads.pop();
        }
    }
    answer
}

#[test]
fn own_calls_are_the_same_and_the_others_differ() {
    let nights = [0, 1, 2].map(|others| lines(5, 2, others));
    let part = |night: &[(bool, String)], own| -> Vec<String> {
        let chosen = night.iter().filter(|(mine, _)| *mine == own);
        chosen.map(|(_, line)| line.clone()).collect()
    };
    assert_eq!(part(&nights[0], true), part(&nights[1], true));
    assert_eq!(part(&nights[1], true), part(&nights[2], true));
    assert_eq!(part(&nights[0], false).len(), 1);
    assert!(part(&nights[1], false).len() > 300);
    assert!(part(&nights[1], false) != part(&nights[2], false));
}

#[test]
fn alone_or_among_others_the_answers_are_the_same() {
    assert_eq!(found(sound), 0);
    let mut all = Vec::new();
    for seed in 5..10 {
        let alone = own_answers(&lines(seed, 2, 0), sound);
        assert_eq!(alone, own_answers(&lines(seed, 2, 1), sound));
        all.extend(alone);
    }
    for kind in [
        "taken",
        "took",
        "held",
        "refused 16",
        "quiet",
        "steady",
        "falling",
        "state closed",
        "state open",
        "state ended",
        "state terminated",
    ] {
        assert!(all.iter().any(|answer| answer.starts_with(kind)), "{kind}");
    }
}

#[test]
fn flaws_are_found() {
    for (name, flaw) in [
        ("live before whose", live_before_whose as Flaw),
        ("common free list", common_free_list),
        ("byte past the part", byte_past_the_part),
        ("ends another stream", ends_another_stream),
        ("spots of all domains", spots_of_all_domains),
        ("holds in another's room", holds_in_anothers_room),
        ("close empties another", close_empties_another),
        ("any stream holds", any_stream_holds),
        ("counts for another", counts_for_another),
        ("tick clears all", tick_clears_all),
        ("tick moves another", tick_moves_another),
        ("state counts another's", state_counts_anothers),
        ("state takes another's read", state_takes_anothers_read),
    ] {
        let found = found(flaw);
        println!("{name}: {found} of 12");
        assert!(found > 0, "{name}");
    }
}
