//! Lines that are oddly written: some of them no command, some still one.

use super::prng::Prng;
use crate::command::MAX_LINE;
use crate::state::HELD;

/// Writes a good line oddly, in one of many ways.
pub fn malform(prng: &mut Prng, line: &[u8]) -> Vec<u8> {
    match prng.below(12) {
        0..=3 => word_fault(prng, line),
        4..=6 => space_fault(prng, line),
        7..=9 => number_or_hex_fault(prng, line),
        10 => other_line(prng),
        _ => byte_fault(prng, line),
    }
}

/// Gives a line at or near the limit of length.
pub fn long_line(prng: &mut Prng, line: &[u8]) -> Vec<u8> {
    let length = MAX_LINE + prng.pick(&[0, 0, 0, 1, 1, 2, 100]);
    match prng.below(6) {
        0 => filled(b"#".to_vec(), b'#', length),
        1 => filled(b"unframe off ".to_vec(), b'0', length),
        2 => filled(b"fpdu ".to_vec(), b'a', length),
        3 => filled(b"crc ".to_vec(), b'5', length),
        4 => filled(b"offer 0 ".to_vec(), b'1', length),
        _ => filled(line.to_vec(), b' ', length),
    }
}

/// Fills a line up to a length.
fn filled(mut line: Vec<u8>, byte: u8, length: usize) -> Vec<u8> {
    line.resize(length.max(line.len()), byte);
    line
}

/// Parts a line into its words.
fn words(line: &[u8]) -> Vec<Vec<u8>> {
    let parted = line.split(|&byte| byte == b' ');
    parted.map(<[u8]>::to_vec).collect()
}

/// Drops, adds, doubles, swaps or spoils words.
fn word_fault(prng: &mut Prng, line: &[u8]) -> Vec<u8> {
    let mut words = words(line);
    let at = prng.index(words.len());
    match prng.below(8) {
        0 | 1 => drop(words.remove(at)),
        2 => words.push(prng.pick(&[&b"0"[..], b"-", b"on", b"00", b"#"]).to_vec()),
        3 => words.insert(at, words[at].clone()),
        4 => words[0].make_ascii_uppercase(),
        5 => words[0].push(prng.pick(b"sz0-")),
        6 => {
            let other = prng.index(words.len());
            words.swap(at, other);
        }
        _ => {
            words[0] = prng
                .pick(&[&b"send"[..], b"frame", b"?", b"0", b"-"])
                .to_vec()
        }
    }
    words.join(&b' ')
}

/// Writes the spaces oddly, or puts another byte in place of one.
fn space_fault(prng: &mut Prng, line: &[u8]) -> Vec<u8> {
    let words = words(line);
    let edge = vec![b' '; prng.index(4) + 1];
    match prng.below(7) {
        0 => words.join(&edge[..]),
        1 => [&edge[..], line].concat(),
        2 => [line, &edge[..]].concat(),
        3 => words.join(&b'\t'),
        4 => [line, b"\r"].concat(),
        5 => [line, b"\t"].concat(),
        _ => [&edge[..], &words.join(&edge[..]), &edge[..]].concat(),
    }
}

/// Spoils the last word, which is a number or hex, or writes it in another way.
fn number_or_hex_fault(prng: &mut Prng, line: &[u8]) -> Vec<u8> {
    let mut words = words(line);
    let at = words.len() - prng.pick(&[1, 1, 2]).min(words.len());
    let word = &mut words[at];
    let inside = prng.index(word.len().max(1));
    match prng.below(12) {
        0 => drop(word.pop()),
        1 => word.push(b'0'),
        2 => word.insert(0, prng.pick(b"+-.x")),
        3 => word.insert(inside, prng.pick(b"gG_zO/:@`")),
        4 => *word = b"18446744073709551615".to_vec(),
        5 => *word = b"18446744073709551616".to_vec(),
        6 => *word = b"99999999999999999999".to_vec(),
        7 => drop(word.splice(0..0, *b"000000000000000000000000")),
        8 => word.make_ascii_uppercase(),
        9 => drop(word.splice(0..0, *b"0x")),
        10 => *word = b"-".to_vec(),
        _ => *word = b"--".to_vec(),
    }
    words.join(&b' ')
}

/// Puts a foreign byte somewhere.
fn byte_fault(prng: &mut Prng, line: &[u8]) -> Vec<u8> {
    let mut line = line.to_vec();
    let at = prng.index(line.len() + 1);
    let high = 0x80 | prng.draw() as u8;
    let byte = prng.pick(&[high, high, 0, 0x7F, 0x0B, b'\r', b'\t', b'#']);
    if at < line.len() && prng.percent(50) {
        line[at] = byte;
    } else {
        line.insert(at, byte);
    }
    line
}

/// Gives a line that never was a command.
fn other_line(prng: &mut Prng) -> Vec<u8> {
    let (over, more) = (
        format!("offer 0 - 0 {}", HELD + 1),
        format!("offer 0 - 0 {HELD} 0"),
    );
    let line: &[u8] = prng.pick(&[
        &b""[..],
        b" ",
        b"    ",
        b"\t",
        b"\r",
        b"#",
        b"# a remark \xC3\xA9",
        b" # not a remark",
        b"unframe",
        b"startup",
        b"startup req 2 0 - 20",
        b"startup req 00 0 - 20",
        b"startup rep 0 -1 - 20",
        b"startup Req 0 0 - 20",
        b"unstartup - req",
        b"unframe ON 0000",
        b"unframe on off 0000",
        b"fpdu - -",
        b"crc",
        b"crc - -",
        b"crc 00000000 - -",
        b"join",
        b"join 00000000 00000000",
        b"join 00000000 00000000 -",
        b"join 00000000 00000000 0 0",
        b"offer",
        b"offer 0",
        b"offer 0 0",
        b"offer 0 - -",
        over.as_bytes(),
        more.as_bytes(),
        b"held",
        b"held -",
        b"held 16",
        b"held 0 0",
        b"tick",
        b"tick -",
        b"tick 0 0",
        b"reading",
        b"reading -",
        b"reading 0 0",
        b"state",
        b"state -",
        b"state 0 0",
        b"state 0 open",
        b"-",
        b"\xFF\xFE",
    ]);
    line.to_vec()
}
