//! Startup frames and what the two sides agree, beside the second program: random ones, any words, and the stored scripts,
//! among them the frames of Linux's software iWARP.

use std::fs;
use std::path::Path;

use oracle::agree::{self, Own};
use oracle::command::{parse, Command, Line};
use oracle::generate::frames;
use oracle::generate::prng::Prng;
use oracle::hex;
use oracle::refusal::Refusal;
use oracle::startup as first;
use oracle::startup2::{self as second, Establishment};
use rnic::raw::{rnic_c_agree_answer, rnic_c_agree_settle, rnic_c_startup_read};
use rnic::raw::{rnic_c_startup_write, startup, RnicStartup, RnicTerms, Written};
use rnic::{answer, read_startup, settle, write_startup};
use rnic::{Answered, Error, Form, Role, Startup, StartupRead, Terms, DEPTH_UNSAID};

/// The longest output: a script's room over it counts as this.
const MAX_ROOM: u64 = 65_536;

/// What the words and the outputs hold before a call.
const BEFORE: u64 = 0xA5A5_A5A5_A5A5_A5A5;

/// Terms that no call wrote.
const UNTOUCHED: RnicTerms = RnicTerms {
    peer: BEFORE,
    ird: BEFORE,
    ord: BEFORE,
    kinds: BEFORE,
};

/// Gives the second program's role.
fn role_there(role: Role) -> first::Role {
    match role {
        Role::Request => first::Role::Request,
        Role::Reply => first::Role::Reply,
    }
}

/// Gives this crate's role.
fn role_here(role: first::Role) -> Role {
    match role {
        first::Role::Request => Role::Request,
        first::Role::Reply => Role::Reply,
    }
}

/// Gives the second program's terms.
fn there(terms: Terms) -> Establishment {
    Establishment {
        peer_to_peer: terms.peer,
        ird: terms.ird,
        ord: terms.ord,
        kinds: terms.kinds,
    }
}

/// Gives this crate's terms.
fn here(fields: Establishment) -> Terms {
    Terms {
        peer: fields.peer_to_peer,
        ird: fields.ird,
        ord: fields.ord,
        kinds: fields.kinds,
    }
}

/// Gives terms as words.
fn words(terms: Terms) -> RnicTerms {
    RnicTerms {
        peer: u64::from(terms.peer),
        ird: terms.ird,
        ord: terms.ord,
        kinds: terms.kinds,
    }
}

/// Gives the second program's refusal as this crate's.
fn refused<T>(refusal: Refusal) -> Result<T, Error> {
    Err(Error::Refused(refusal as u8))
}

/// Gives what the second program writes of a frame, with the whole output.
fn written_there(
    role: Role,
    frame: Startup,
    data: &[u8],
    room: usize,
) -> (Result<usize, Error>, Vec<u8>) {
    let Startup {
        crc,
        declined,
        form,
    } = frame;
    let (role, mut out) = (role_there(role), vec![0xA5; room]);
    let written = match form {
        Form::First => first::write_startup(role, crc, declined, data, &mut out),
        Form::Second => second::write_startup2(role, crc, declined, None, data, &mut out),
        Form::Enhanced(terms) => {
            let terms = Some(there(terms));
            second::write_startup2(role, crc, declined, terms, data, &mut out)
        }
    };
    (written.or_else(refused), out)
}

/// Gives what the library writes of a frame, the same as the second program does.
fn check_write(
    role: Role,
    frame: Startup,
    data: &[u8],
    room: usize,
) -> (Result<usize, Error>, Vec<u8>) {
    let mut out = vec![0xA5; room];
    let written = write_startup(role, frame, data, &mut out);
    let expected = written_there(role, frame, data, room);
    assert!((written, &out) == (expected.0, &expected.1), "{frame:?}");
    expected
}

/// Gives what the second program reads.
fn read_there(role: Role, bytes: &[u8]) -> Result<StartupRead<'_>, Error> {
    let (total, crc, declined, form, private_data) =
        match second::read_startup2(role_there(role), bytes) {
            second::Startup2::Wait(total) => return Ok(StartupRead::Wait(total)),
            second::Startup2::Refused(refusal) => return refused(refusal),
            second::Startup2::Revision1(first::Startup::Wait(total)) => {
                return Ok(StartupRead::Wait(total))
            }
            second::Startup2::Revision1(first::Startup::Refused(refusal)) => {
                return refused(refusal)
            }
            second::Startup2::Revision1(first::Startup::Whole {
                total,
                crc,
                reject,
                private_data,
            }) => (total, crc, reject, Form::First, private_data),
            second::Startup2::Whole {
                total,
                crc,
                reject,
                establishment,
                private_data,
            } => {
                let form = match establishment {
                    Some(fields) => Form::Enhanced(here(fields)),
                    None => Form::Second,
                };
                (total, crc, reject, form, private_data)
            }
        };
    let frame = Startup {
        crc,
        declined,
        form,
    };
    Ok(StartupRead::Taken {
        total,
        frame,
        private_data,
    })
}

/// Gives the words of what was read: those without a use are 0.
fn frame_words(read: Result<StartupRead<'_>, Error>) -> RnicStartup {
    let alone = |kind, total| RnicStartup {
        kind,
        total,
        start: 0,
        crc: 0,
        declined: 0,
        terms: RnicTerms {
            peer: 0,
            ird: 0,
            ord: 0,
            kinds: 0,
        },
    };
    match read {
        Err(Error::Refused(number)) => alone(startup::REFUSED, u64::from(number)),
        Err(error) => panic!("{error}"),
        Ok(StartupRead::Wait(total)) => alone(startup::WAIT, total as u64),
        Ok(StartupRead::Taken {
            total,
            frame,
            private_data,
        }) => {
            let found = RnicStartup {
                start: (total - private_data.len()) as u64,
                crc: u64::from(frame.crc),
                declined: u64::from(frame.declined),
                ..alone(startup::SECOND, total as u64)
            };
            match frame.form {
                Form::First => RnicStartup {
                    kind: startup::FIRST,
                    ..found
                },
                Form::Second => found,
                Form::Enhanced(terms) => RnicStartup {
                    kind: startup::ENHANCED,
                    terms: words(terms),
                    ..found
                },
            }
        }
    }
}

/// Gives what the library reads, the same as the second program does: as the crate tells it, and as words.
fn check_read(role: Role, bytes: &[u8]) -> Result<StartupRead<'_>, Error> {
    let expected = read_there(role, bytes);
    assert_eq!(read_startup(role, bytes), expected, "{bytes:x?}");
    let mut found = [RnicStartup {
        kind: BEFORE,
        total: BEFORE,
        start: BEFORE,
        crc: BEFORE,
        declined: BEFORE,
        terms: UNTOUCHED,
    }; 3];
    let [beside, ..] = found;
    let replies: &[u64] = match role {
        Role::Request => &[0],
        Role::Reply => &[1, 2, 1 << 32, u64::MAX],
    };
    for reply in replies {
        // SAFETY: the pointers are those of values held for the call, with the slice's own length.
        unsafe { rnic_c_startup_read(*reply, bytes.as_ptr(), bytes.len(), &mut found[1]) };
        let expected = [beside, frame_words(expected), beside];
        assert_eq!(found, expected, "{bytes:x?}");
    }
    expected
}

/// Gives what a responder answers, the same as the second program's; a refusal leaves the words.
fn check_answer(own: Terms, request: Terms) -> Result<Answered, Error> {
    let mine = Own {
        ird: own.ird,
        ord: own.ord,
        kinds: own.kinds,
    };
    let expected = match agree::respond(mine, there(request)) {
        Err(refusal) => refused(refusal),
        Ok(reply) => {
            let ord = match request.ird {
                DEPTH_UNSAID => own.ord,
                _ => reply.ord,
            };
            let reply = here(reply);
            let kept = Terms {
                ird: own.ird,
                ord,
                ..reply
            };
            Ok(Answered { reply, kept })
        }
    };
    assert_eq!(answer(own, request), expected, "{own:?} {request:?}");
    let (mut reply, mut kept) = ([UNTOUCHED; 3], [UNTOUCHED; 3]);
    let (mine, asked) = (words(own), words(request));
    // SAFETY: the pointers are those of values held for the call.
    let number = unsafe { rnic_c_agree_answer(&mine, &asked, &mut reply[1], &mut kept[1]) };
    let (refusal, said, keeps) = match expected {
        Ok(answered) => (0, words(answered.reply), words(answered.kept)),
        Err(Error::Refused(refusal)) => (u32::from(refusal), UNTOUCHED, UNTOUCHED),
        Err(error) => panic!("{error}"),
    };
    assert_eq!(number, refusal, "{own:?} {request:?}");
    assert_eq!(reply, [UNTOUCHED, said, UNTOUCHED], "{own:?} {request:?}");
    assert_eq!(kept, [UNTOUCHED, keeps, UNTOUCHED], "{own:?} {request:?}");
    expected
}

/// Gives what an initiator settles, the same as the second program's; a refusal leaves the words.
fn check_settle(own: Terms, reply: Terms) -> Result<Terms, Error> {
    let expected = match agree::settle(there(own), there(reply)) {
        Err(refusal) => refused(refusal),
        Ok(kept) => Ok(Terms {
            peer: own.peer,
            ird: kept.ird,
            ord: kept.ord,
            kinds: kept.kind,
        }),
    };
    assert_eq!(settle(own, reply), expected, "{own:?} {reply:?}");
    let mut kept = [UNTOUCHED; 3];
    let (mine, said) = (words(own), words(reply));
    // SAFETY: as above.
    let number = unsafe { rnic_c_agree_settle(&mine, &said, &mut kept[1]) };
    let (refusal, keeps) = match expected {
        Ok(kept) => (0, words(kept)),
        Err(Error::Refused(refusal)) => (u32::from(refusal), UNTOUCHED),
        Err(error) => panic!("{error}"),
    };
    assert_eq!(number, refusal, "{own:?} {reply:?}");
    assert_eq!(kept, [UNTOUCHED, keeps, UNTOUCHED], "{own:?} {reply:?}");
    expected
}

/// Gives terms as a script writes them.
fn terms_text(terms: Terms) -> String {
    let Terms {
        peer,
        ird,
        ord,
        kinds,
    } = terms;
    format!("{} {ird} {ord} {kinds}", u8::from(peer))
}

/// Gives what was read as a script writes it.
fn read_text(read: StartupRead<'_>) -> String {
    match read {
        StartupRead::Wait(total) => format!("wait {total}"),
        StartupRead::Taken {
            total,
            frame,
            private_data,
        } => {
            let (word, terms) = match frame.form {
                Form::First => ("startup", String::new()),
                Form::Second => ("startup2", String::new()),
                Form::Enhanced(terms) => ("startup2", terms_text(terms) + " "),
            };
            let (crc, declined) = (u8::from(frame.crc), u8::from(frame.declined));
            let data = hex::encode(private_data);
            format!("{word} {total} {crc} {declined} {terms}{data}")
        }
    }
}

/// Gives what was written as a script writes it.
fn written_text((written, out): (Result<usize, Error>, Vec<u8>)) -> Result<String, Error> {
    written.map(|total| format!("wrote {total} {}", hex::encode(&out[..total])))
}

/// Runs a command of a script that is on startup and gives its answer; of others, and of the reader of revision 1 alone,
/// which the C interface does not have, nothing.
fn run(command: Command) -> Option<String> {
    let answer = match command {
        Command::Startup {
            role,
            crc,
            reject: declined,
            private_data,
            room,
        } => {
            let frame = Startup {
                crc,
                declined,
                form: Form::First,
            };
            let role = role_here(role);
            written_text(check_write(
                role,
                frame,
                &private_data,
                room.min(MAX_ROOM) as usize,
            ))
        }
        Command::Startup2 {
            role,
            crc,
            reject: declined,
            establishment,
            private_data,
            room,
        } => {
            let form = match establishment {
                Some(fields) => Form::Enhanced(here(fields)),
                None => Form::Second,
            };
            let frame = Startup {
                crc,
                declined,
                form,
            };
            let role = role_here(role);
            written_text(check_write(
                role,
                frame,
                &private_data,
                room.min(MAX_ROOM) as usize,
            ))
        }
        Command::Unstartup2 { role, bytes } => check_read(role_here(role), &bytes).map(read_text),
        Command::Agree { own, request } => {
            let own = Terms {
                peer: false,
                ird: own.ird,
                ord: own.ord,
                kinds: own.kinds,
            };
            let answered = check_answer(own, here(request));
            // A responder's own A is not looked at.
            assert_eq!(
                check_answer(Terms { peer: true, ..own }, here(request)),
                answered
            );
            answered.map(|answered| format!("agreed {}", terms_text(answered.reply)))
        }
        _ => return None,
    };
    Some(answer.unwrap_or_else(crate::support::device::refused))
}

/// Runs the lines on startup of a stored script, each answer the stored one; gives how many there were.
fn compare(script: &Path) -> usize {
    let text = fs::read(script).unwrap();
    let stored = fs::read_to_string(script.with_extension("answers")).unwrap();
    let mut answers = stored.lines();
    let mut compared = 0;
    for line in text.split(|&byte| byte == b'\n') {
        let command = match parse(line) {
            Line::Silent => continue,
            Line::Bad => None,
            Line::Command(command) => Some(command),
        };
        let stored = answers.next();
        if let Some(answer) = command.and_then(run) {
            assert_eq!(Some(answer.as_str()), stored, "{}", script.display());
            compared += 1;
        }
    }
    compared
}

/// Every script's lines on startup; of siw's frames all but those of the reader of revision 1.
#[test]
fn stored_scripts() {
    let folder = Path::new(env!("CARGO_MANIFEST_DIR")).join("../scripts");
    assert_eq!(compare(&folder.join("siw-startup.txt")), 60);
    let files = fs::read_dir(folder)
        .unwrap()
        .map(|entry| entry.unwrap().path());
    let scripts = files.filter(|path| path.extension().is_some_and(|end| end == "txt"));
    let compared: usize = scripts.map(|script| compare(&script)).sum();
    assert!(compared > 350, "{compared} answers compared");
}

/// Random lines that write, read and answer; each kind of answer is met often.
#[test]
fn random_lines() {
    let mut prng = Prng::new(30);
    let mut answers = Vec::new();
    for _ in 0..100_000 {
        if let Line::Command(command) = parse(&frames::line(&mut prng)) {
            answers.extend(run(command));
        }
    }
    for (start, least) in [
        ("wrote ", 5_000),
        ("startup ", 500),
        ("startup2 ", 2_000),
        ("wait ", 500),
        ("agreed ", 2_000),
        ("refused 1", 500),
        ("refused 12", 500),
        ("refused 13", 500),
        ("refused 14", 500),
        ("refused 15", 100),
        ("refused 40", 500),
        ("refused 41", 500),
    ] {
        let matches = |answer: &&String| match start.ends_with(' ') {
            true => answer.starts_with(start),
            false => *answer == start,
        };
        let count = answers.iter().filter(matches).count();
        assert!(count >= least, "{start}: {count}");
    }
}

/// Gives terms with depths that are often next to each other, at the limit or past it.
fn any_terms(prng: &mut Prng) -> Terms {
    let depth = |prng: &mut Prng| match prng.below(12) {
        0 => prng.draw(),
        1 => DEPTH_UNSAID + 1,
        2 | 3 => DEPTH_UNSAID,
        4 => DEPTH_UNSAID - 1,
        5 => prng.below(DEPTH_UNSAID),
        _ => prng.below(4),
    };
    Terms {
        peer: prng.percent(50),
        ird: depth(prng),
        ord: depth(prng),
        kinds: match prng.percent(3) {
            true => prng.between(8, 20),
            false => prng.below(8),
        },
    }
}

/// Random terms of both sides: an initiator settles by what a responder answered, and by any other reply.
#[test]
fn random_terms() {
    let mut prng = Prng::new(31);
    let (mut settled, mut refusals) = (0, [0; 42]);
    for _ in 0..200_000 {
        let (own, other) = (any_terms(&mut prng), any_terms(&mut prng));
        if let Ok(answered) = check_answer(own, other) {
            let kept = check_settle(other, answered.reply).expect("what was answered is settled");
            assert_eq!(
                (kept.peer, kept.kinds),
                (answered.kept.peer, answered.kept.kinds)
            );
            settled += 1;
        }
        match check_settle(own, other) {
            Ok(_) => settled += 1,
            Err(Error::Refused(number)) => refusals[usize::from(number)] += 1,
            Err(error) => panic!("{error}"),
        }
    }
    assert!(settled > 20_000, "{settled}");
    let met = [1, 40, 41].map(|number| refusals[number]);
    assert!(met.iter().all(|&count| count > 5_000), "{met:?}");
}

/// Any nine words: kinds that are no frame's are refused with 1, flags are set where they are not 0, and total and start are
/// not looked at. What was read is written as the same bytes.
#[test]
fn any_words() {
    let mut prng = Prng::new(32);
    let mut written = 0;
    for _ in 0..100_000 {
        let terms = any_terms(&mut prng);
        let flag = |prng: &mut Prng| match prng.percent(50) {
            true => 0,
            false => prng.pick(&[1, 2, 256, 1 << 32, u64::MAX]),
        };
        let frame = RnicStartup {
            kind: match prng.percent(80) {
                true => prng.between(1, 3),
                false => prng.pick(&[0, 4, 5, 257, (1 << 32) + 1, u64::MAX]),
            },
            total: prng.draw(),
            start: prng.draw(),
            crc: flag(&mut prng),
            declined: flag(&mut prng),
            terms: RnicTerms {
                peer: flag(&mut prng),
                ..words(terms)
            },
        };
        let reply = flag(&mut prng);
        let role = if reply == 0 {
            Role::Request
        } else {
            Role::Reply
        };
        let length = prng.pick(&[0, 1, 4, 100, 508, 509, 512, 513]);
        let data = prng.bytes(length);
        let room = prng.pick(&[0, 20, 24, 40, 532, 600]);
        let form = match frame.kind {
            1 => Some(Form::First),
            2 => Some(Form::Second),
            3 => Some(Form::Enhanced(Terms {
                peer: frame.terms.peer != 0,
                ..terms
            })),
            _ => None,
        };
        let expected = match form {
            None => (Err(Error::Refused(1)), vec![0xA5; room]),
            Some(form) => {
                let frame = Startup {
                    crc: frame.crc != 0,
                    declined: frame.declined != 0,
                    form,
                };
                check_write(role, frame, &data, room)
            }
        };
        let (wrote, out) = write_words(reply, &frame, &data, room);
        let told = match expected.0 {
            Ok(total) => [1, total as u64],
            Err(Error::Refused(number)) => [0, u64::from(number)],
            Err(error) => panic!("{error}"),
        };
        assert!(wrote == told && out == expected.1, "{frame:?}");
        if wrote[0] == 1 {
            written += 1;
            let mut found = frame;
            // SAFETY: the pointers are those of values held for the call, with the slice's own length.
            unsafe { rnic_c_startup_read(reply, out.as_ptr(), out.len(), &mut found) };
            let data = &out[found.start as usize..found.total as usize];
            assert_eq!(write_words(reply, &found, data, room), (wrote, out.clone()));
        }
    }
    assert!(written > 10_000, "{written}");
}

/// Writes a frame from its words, and gives the answer and the whole output.
fn write_words(reply: u64, frame: &RnicStartup, data: &[u8], room: usize) -> (Written, Vec<u8>) {
    let (mut out, mut answer) = (vec![0xA5; room], [BEFORE; 2]);
    // SAFETY: the pointers are those of values held for the call, with the slices' own lengths.
    unsafe {
        rnic_c_startup_write(
            reply,
            frame,
            data.as_ptr(),
            data.len(),
            out.as_mut_ptr(),
            out.len(),
            &mut answer,
        );
    }
    (answer, out)
}
