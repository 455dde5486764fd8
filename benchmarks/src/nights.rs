//! Nights of mixed calls, as the second program's generator writes them: the time of a call among others.

use std::hint::black_box;

use rnic::{Rooms, Window};
use oracle::command::{parse, Command, Line};
use oracle::generate::nights::{write_spoilt_script, FAULTY};
use oracle::state::{Device as Second, HELD};

use crate::measure::{measure, repeated, Work};
use crate::receive::on_off;
use crate::receiver::{Eight, Ours, Outcome, Receiver};
use crate::table;

/// Bytes of the store.
const STORE: usize = 65_536;
/// Lines of a night's script, nearly all of which are calls.
const LINES: u64 = 3000;

/// A call with the counts of bytes that it lends, of the store and of the rooms.
type Call = (Command, usize, usize);

/// What the calls lend.
struct Lent {
    store: Vec<u8>,
    rooms: Rooms,
}

impl Lent {
    /// Gives zeros.
    fn new() -> Self {
        Lent {
            store: vec![0; STORE],
            rooms: Rooms::new(),
        }
    }
}

/// Writes the table.
pub fn write() {
    println!("\n### Nights of mixed calls, a call");
    let columns = [
        "calls",
        "refused",
        "ours",
        "second program",
        "ours ÷ second",
        "eight tables",
        "ours ÷ eight",
    ];
    table::head(&["night", "CRC"], &columns);
    for crc in [false, true] {
        let calls = |faulty| calls(faulty, crc);
        row("what is refused left out", crc, accepted(calls(0)));
        row("no FPDU with a fault", crc, calls(0));
        row("16 FPDUs of 100 with a fault", crc, calls(FAULTY));
        row("60 FPDUs of 100 with a fault", crc, calls(60));
    }
}

/// Times the receivers on a night and writes its row.
fn row(name: &str, crc: bool, calls: Vec<Call>) {
    let outcomes = outcomes::<Ours>(&calls);
    assert!(outcomes == self::outcomes::<Second>(&calls), "{name}");
    assert!(outcomes == self::outcomes::<Eight>(&calls), "{name}");
    let refused = outcomes.0.iter().filter(|outcome| is_refused(outcome));
    let percent = 100.0 * refused.count() as f64 / calls.len() as f64;
    let mut contenders = vec![replayed::<Ours>(&calls), replayed::<Second>(&calls)];
    if crc {
        contenders.push(replayed::<Eight>(&calls));
    }
    let times = measure(calls.len() as u64, &mut contenders);
    let mut cells = vec![String::from(name), String::from(on_off(crc))];
    cells.push(table::grouped(calls.len() as u64));
    let percent = format!("{percent:.0} %");
    cells.extend(table::compared(percent, &times[0], &times[1]));
    cells.extend(table::with_crc(&times[0], times.get(2)));
    table::row(&cells);
}

/// Gives the calls of a night in which so many FPDUs of a hundred have a fault, every stream opened with this CRC.
fn calls(faulty: u64, crc: bool) -> Vec<Call> {
    let mut script = Vec::new();
    let written = write_spoilt_script(STORE, faulty, 1, LINES, &mut script);
    written.expect("a script is written to memory");
    let mut lent = 0;
    let lines = script.split(|&byte| byte == b'\n');
    lines
        .filter_map(|line| call(line, crc, &mut lent))
        .collect()
}

/// Gives the call of a line, where it is one that the store has bytes enough for.
fn call(line: &[u8], crc: bool, lent: &mut usize) -> Option<Call> {
    let Line::Command(mut command) = parse(line) else {
        return None;
    };
    let (mut own, mut rooms) = (None, None);
    match &mut command {
        Command::Open { length, .. } => *lent = STORE.min(*length as usize),
        Command::Stream { crc: setting, .. } => *setting = crc,
        Command::Receive { lent, .. } => own = *lent,
        Command::Offer { lent, held, .. } => (own, rooms) = (*lent, *held),
        Command::Close(_)
        | Command::Register { .. }
        | Command::Drop(_)
        | Command::Post { .. }
        | Command::Take(_)
        | Command::Live(_)
        | Command::Free(_)
        | Command::Tick(_)
        | Command::Reading(_) => (),
        _ => return None,
    }
    let lent = own.map_or(*lent, |own| own as usize);
    let rooms = rooms.map_or(HELD, |rooms| rooms as usize);
    (lent <= STORE && rooms <= HELD).then_some((command, lent, rooms))
}

/// Leaves out the calls that are refused where those before them are left out.
fn accepted(mut calls: Vec<Call>) -> Vec<Call> {
    let (mut device, mut lent) = (Second::default(), Lent::new());
    calls.retain(|call| {
        let mut tried = device.clone();
        let kept = !is_refused(&make(&mut tried, &mut lent, call));
        if kept {
            device = tried;
        }
        kept
    });
    calls
}

/// Says whether a call was refused.
fn is_refused(outcome: &Outcome) -> bool {
    matches!(outcome, Outcome::Refused(_))
}

/// Gives the answers of a night, and the store after it.
fn outcomes<R: Receiver>(calls: &[Call]) -> (Vec<Outcome>, Vec<u8>) {
    let (mut device, mut lent) = (R::new(), Lent::new());
    let answered = calls.iter().map(|call| make(&mut device, &mut lent, call));
    (answered.collect(), lent.store)
}

/// Gives the night as work, each time from a new device.
fn replayed<R: Receiver + 'static>(calls: &[Call]) -> Work<'_> {
    let mut lent = Lent::new();
    repeated(move || {
        let mut device = R::new();
        for call in calls {
            black_box(make(&mut device, &mut lent, black_box(call)));
        }
    })
}

/// Makes a call.
fn make<R: Receiver>(device: &mut R, lent: &mut Lent, call: &Call) -> Outcome {
    let (command, store, rooms) = call;
    match *command {
        Command::Open { length, parts } => {
            device.open(length, parts.map(|part| (part.start, part.end)))
        }
        Command::Stream { stream, crc } => device.open_stream(stream, crc),
        Command::Close(stream) => device.close_stream(stream),
        Command::Register {
            window: number,
            key,
            base,
            length,
            place,
            rights,
        } => {
            let window = Window {
                key,
                base,
                length,
                place,
                rights,
            };
            device.register(number, window)
        }
        Command::Drop(window) => device.drop_window(window),
        Command::Post {
            stream,
            start,
            length,
        } => device.post(stream, start, length),
        Command::Receive {
            stream, ref bytes, ..
        } => device.receive(&mut lent.store[..*store], stream, bytes),
        Command::Offer {
            stream, ref bytes, ..
        } => {
            let (store, rooms) = (&mut lent.store[..*store], &mut lent.rooms[..*rooms]);
            device.offer(store, rooms, stream, bytes)
        }
        Command::Take(stream) => device.take(stream),
        Command::Live(domain) => device.live(domain),
        Command::Free(domain) => device.free(domain),
        Command::Tick(domain) => device.tick(domain),
        Command::Reading(domain) => device.reading(domain),
        _ => unreachable!("no call of the device"),
    }
}
