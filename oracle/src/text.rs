//! The answers as lines of text.

use crate::hex;
use crate::offer::Offered;
use crate::rdmap::ReadRequest;
use crate::receive::{Answer, Event};
use crate::refusal::Refusal;
use crate::startup::Startup;
use crate::startup2::{Establishment, Startup2};
use crate::state::Condition;

/// Writes what receive answers.
pub fn answer_text(answer: Answer) -> String {
    match answer {
        Answer::Wait(total) => format!("wait {total}"),
        Answer::Taken { total, event } => format!("taken {total}{}", event_text(event)),
        Answer::Refused(refusal) => refused(refusal),
        Answer::Fault(fault) => format!("refused {fault}"),
    }
}

/// Writes what offer answers.
pub fn offered_text(answer: Offered) -> String {
    match answer {
        Offered::Held { took } => format!("took {took}"),
        Offered::Taken { took, total, event } => {
            format!("took {took} taken {total}{}", event_text(event))
        }
        Offered::Refused(refusal) => refused(refusal),
        Offered::Fault(fault) => format!("refused {fault}"),
    }
}

/// Writes an event, a space before it where there is one.
fn event_text(event: Event) -> String {
    match event {
        Event::None => String::new(),
        Event::Send {
            start,
            length,
            opcode,
            invalidated,
        } => {
            let stag = invalidated.map_or(String::new(), |stag| format!(" stag {stag}"));
            format!(" send {start} {length} {opcode}{stag}")
        }
        Event::Terminate(terminate) => format!(
            " terminate {} {} {}",
            terminate.layer, terminate.etype, terminate.code
        ),
    }
}

/// Writes a local refusal.
pub fn refused(refusal: Refusal) -> String {
    format!("refused {refusal}")
}

/// Writes the answer of a call that gives nothing back.
pub fn done(result: Result<(), Refusal>) -> Result<String, Refusal> {
    result.map(|()| String::from("done"))
}

/// Writes the answer to a line that is no command.
pub fn bad() -> String {
    String::from("bad")
}

/// Writes a stream's state, with the buffers and reads that wait on it unless it is closed.
pub fn state_text(condition: Condition, (buffers, reads): (usize, usize)) -> String {
    let open = match condition {
        Condition::Closed => return String::from("state closed"),
        Condition::Open => String::from("open"),
        Condition::Faulted(fault) => format!("ended {fault}"),
        Condition::Terminated => String::from("terminated"),
    };
    format!("state {open} {buffers} {reads}")
}

/// Writes a read.
pub fn read_text(read: ReadRequest) -> String {
    let ReadRequest {
        sink_stag,
        sink_to,
        size,
        source_stag,
        source_to,
    } = read;
    format!("read {sink_stag} {sink_to} {size} {source_stag} {source_to}")
}

/// Writes a CRC.
pub fn crc_text(crc: u32) -> String {
    format!("crc {crc:08x}")
}

/// Writes what reading a startup frame of revision 1 gives.
pub fn startup_text(startup: Startup) -> String {
    match startup {
        Startup::Wait(total) => format!("wait {total}"),
        Startup::Whole {
            total,
            crc,
            reject,
            private_data,
        } => format!(
            "startup {total} {} {} {}",
            u8::from(crc),
            u8::from(reject),
            hex::encode(private_data)
        ),
        Startup::Refused(refusal) => refused(refusal),
    }
}

/// Writes what reading a startup frame of either revision gives.
pub fn startup2_text(startup: Startup2) -> String {
    match startup {
        Startup2::Revision1(startup) => startup_text(startup),
        Startup2::Wait(total) => format!("wait {total}"),
        Startup2::Whole {
            total,
            crc,
            reject,
            establishment,
            private_data,
        } => {
            let fields = establishment.map_or(String::new(), |fields| fields_text(fields) + " ");
            format!(
                "startup2 {total} {} {} {fields}{}",
                u8::from(crc),
                u8::from(reject),
                hex::encode(private_data)
            )
        }
        Startup2::Refused(refusal) => refused(refusal),
    }
}

/// Writes what a reply says.
pub fn agreed_text(reply: Establishment) -> String {
    format!("agreed {}", fields_text(reply))
}

/// Writes A, IRD, ORD and KINDS.
fn fields_text(fields: Establishment) -> String {
    let Establishment {
        peer_to_peer,
        ird,
        ord,
        kinds,
    } = fields;
    format!("{} {ird} {ord} {kinds}", u8::from(peer_to_peer))
}
