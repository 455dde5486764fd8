//! Every call by itself: what a host does beside Writes, with the aims for each.

use oracle::generate::draft::{frame, Draft, Sink};
use oracle::generate::prng::Prng;
use oracle::rdmap;

use crate::bed::{act, buffer, Act, Step, OTHER, RIGHTS, STREAM, WINDOW};
use crate::scene::{BASE, KEY, ROOM};
use crate::table::{self, Aim};

/// Gives the acts, with the aims for them: ours at most so many times the second program.
fn acts() -> Vec<(Act, f64)> {
    vec![
        (post_and_send(64), 3.0),
        (post_and_send(2030), 2.0),
        (read_and_take(), 4.0),
        (wait(), 2.0),
        (take_none(), 6.0),
        (open_and_close(), 4.0),
        (register_and_drop(), 8.0),
        (live(), 6.0),
        (free(), 6.0),
        (tick(), 6.0),
        (reading(), 6.0),
    ]
}

/// Writes the table.
pub fn write() {
    println!("\n### Every call, CRC off");
    let columns = ["ours", "second program", "ours ÷ second", "aim", "met"];
    table::head(&["call"], &columns);
    for (act, aim) in acts() {
        let [ours, second] = act.times();
        let mut cells = table::compared(act.name, &ours, &second);
        cells.extend(Aim(Some(aim)).cells(ours.ratio(&second)));
        table::row(&cells);
    }
}

/// A buffer for any Send.
pub const POST: Step = Step::Post(STREAM, buffer(0), ROOM);
/// The act's FPDU, received on the stream that is used.
pub const RECEIVE: Step = Step::Receive(STREAM);

/// Posts a buffer, and receives a Send of so many bytes into it.
pub fn post_and_send(size: usize) -> Act {
    let name = format!("post and Send, {} bytes", table::grouped(size as u64));
    let bytes = frame(&send(size).ulpdu(), 0);
    act!(name, [Step::Next, Step::Number, POST, RECEIVE], bytes)
}

/// Receives a Read Request, and takes it.
pub fn read_and_take() -> Act {
    let bytes = frame(&read_request().ulpdu(), 0);
    let name = "Read Request and take";
    act!(
        name,
        [Step::Next, Step::Number, RECEIVE, Step::Take(STREAM)],
        bytes
    )
}

/// Receives the front of an FPDU.
pub fn wait() -> Act {
    let bytes = frame(&write_of(64).ulpdu(), 0);
    let name = "receive of half an FPDU: Wait";
    act!(name, [Step::ReceiveHalf(STREAM)], bytes)
}

/// Asks for a read where none waits.
pub fn take_none() -> Act {
    act!("take, none waits", [Step::Take(STREAM)], Vec::new()).refused(11)
}

/// Opens and closes a stream.
pub fn open_and_close() -> Act {
    let name = "open and close a stream";
    act!(
        name,
        [Step::OpenStream(OTHER, false), Step::Close(OTHER)],
        Vec::new()
    )
}

/// Registers and drops a window.
pub fn register_and_drop() -> Act {
    let name = "register and drop a window";
    act!(
        name,
        [
            Step::Next,
            Step::Register(WINDOW, RIGHTS),
            Step::Drop(WINDOW)
        ],
        Vec::new()
    )
}

/// Asks how many windows are live.
pub fn live() -> Act {
    act!("live", [Step::Live(0)], Vec::new())
}

/// Asks for the lowest free slot.
pub fn free() -> Act {
    act!("free", [Step::Free(0)], Vec::new())
}

/// Makes a sample of a count, which is 0.
pub fn tick() -> Act {
    act!("tick", [Step::Tick(0)], Vec::new())
}

/// Asks for the reading of a gauge that is steady.
pub fn reading() -> Act {
    let bytes = frame(&write_of(64).ulpdu(), 0);
    act!("reading", [Step::Reading(0)], bytes).after(&[RECEIVE, Step::Tick(0)])
}

/// Drafts a Write of so many bytes into the window that stays.
pub fn write_of(size: usize) -> Draft {
    let mut draft = Draft::new(true, rdmap::WRITE);
    (draft.stag, draft.to) = (KEY as u32, BASE);
    draft.payload = Prng::new(1).bytes(size);
    draft
}

/// Drafts a Send of so many bytes.
pub fn send(size: usize) -> Draft {
    let mut draft = Draft::new(false, rdmap::SEND);
    draft.payload = Prng::new(1).bytes(size);
    draft
}

/// Drafts a Read Request of bytes of the window that stays.
pub fn read_request() -> Draft {
    let mut draft = Draft::new(false, rdmap::READ_REQUEST);
    (draft.qn, draft.stag, draft.to) = (rdmap::READ_QUEUE, KEY as u32, BASE);
    draft.sink = Some(Sink {
        stag: 1,
        to: 0,
        size: 64,
    });
    draft
}
