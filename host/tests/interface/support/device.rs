//! The safe functions as a device for scripts.

use oracle::command::Command;
use rnic::{Device, Error, Event, Fault, Offered, Reading, Received, StreamState, Window};

use super::Calls;

impl Calls for Device {
    fn call(&mut self, command: &Command, store: &mut [u8], rooms: &mut [u8]) -> String {
        answer(self, command, store, rooms).unwrap_or_else(refused)
    }
}

/// Writes a refusal as a script's answer has it, the number alone.
pub fn refused(error: Error) -> String {
    match error {
        Error::Refused(number) => format!("refused {number}"),
        Error::Unexpected(words) => format!("no answer: {words:?}"),
    }
}

/// Makes the call of a command and writes its answer.
fn answer(
    device: &mut Device,
    command: &Command,
    store: &mut [u8],
    rooms: &mut [u8],
) -> Result<String, Error> {
    Ok(match command {
        Command::Open { length, parts } => {
            device.open(*length, parts.map(|part| part.start..part.end))?;
            String::from("opened")
        }
        Command::Stream { stream, crc } => done(device.open_stream(*stream, *crc)?),
        Command::Close(stream) => {
            let closed = device.close_stream(*stream)?;
            format!("closed {} {}", closed.buffers, closed.reads)
        }
        Command::Register { .. } => register(device, command)?,
        Command::Drop(window) => done(device.drop_window(*window)?),
        Command::Post {
            stream,
            start,
            length,
        } => done(device.post(*stream, *start, *length)?),
        Command::Receive { stream, bytes, .. } => received(device.receive(store, *stream, bytes)?),
        Command::Offer { stream, bytes, .. } => {
            offered(device.offer(store, rooms, *stream, bytes)?)
        }
        Command::Held(stream) => format!("held {}", device.held(*stream)),
        Command::Take(stream) => {
            let read = device.take(*stream)?;
            let (sink, source) = (read.sink_stag, read.source_stag);
            format!(
                "read {sink} {} {} {source} {}",
                read.sink_to, read.size, read.source_to
            )
        }
        Command::Live(domain) => format!("live {}", device.live_count(*domain)?),
        Command::Free(domain) => format!("free {}", device.lowest_free(*domain)?),
        Command::Tick(domain) => done(device.tick(*domain)?),
        Command::Reading(domain) => gauged(device.reading(*domain)?),
        Command::State(stream) => stated(device.state(*stream)?),
        _ => String::from("no call of the device"),
    })
}

/// Writes the answer of a call that gives nothing back.
fn done((): ()) -> String {
    String::from("done")
}

/// Registers a window.
fn register(device: &mut Device, command: &Command) -> Result<String, Error> {
    if let Command::Register {
        window: number,
        key,
        base,
        length,
        place,
        rights,
    } = *command
    {
        let window = Window {
            key,
            base,
            length,
            place,
            rights,
        };
        device.register(number, window)?;
    }
    Ok(done(()))
}

/// Writes what a gauge reads as.
fn gauged(reading: Reading) -> String {
    match reading {
        Reading::Quiet => String::from("quiet"),
        Reading::Steady(level) => format!("steady {:016x}", level.to_bits()),
        Reading::Falling { level, peak } => {
            format!("falling {:016x} {:016x}", level.to_bits(), peak.to_bits())
        }
    }
}

/// Writes what a stream's state is.
fn stated(state: StreamState) -> String {
    match state {
        StreamState::Closed => String::from("state closed"),
        StreamState::Open { buffers, reads } => format!("state open {buffers} {reads}"),
        StreamState::Ended {
            fault,
            buffers,
            reads,
        } => format!("state ended {} {buffers} {reads}", numbers(fault)),
        StreamState::Terminated { buffers, reads } => format!("state terminated {buffers} {reads}"),
    }
}

/// Writes what receive answers.
fn received(answer: Received) -> String {
    match answer {
        Received::Wait(total) => format!("wait {total}"),
        Received::Taken { total, event } => format!("taken {total}{}", reported(event)),
        Received::Ended(fault) => ended(fault),
    }
}

/// Writes what an offer answers.
fn offered(answer: Offered) -> String {
    match answer {
        Offered::Kept { taken } => format!("took {taken}"),
        Offered::Taken {
            taken,
            total,
            event,
        } => format!("took {taken} taken {total}{}", reported(event)),
        Offered::Ended(fault) => ended(fault),
    }
}

/// Writes a refusal of the peer's bytes.
fn ended(fault: Fault) -> String {
    format!("refused {}", numbers(fault))
}

/// Writes a fault's number, layer, type and code.
fn numbers(fault: Fault) -> String {
    let Fault {
        number,
        layer,
        etype,
        code,
    } = fault;
    format!("{number} {layer}/{etype}/{code:02X}")
}

/// Writes an event, a space before it where there is one.
fn reported(event: Event) -> String {
    match event {
        Event::None => String::new(),
        Event::Send {
            start,
            length,
            opcode,
            invalidated,
        } => {
            let stag = invalidated.map_or(String::new(), |stag| format!(" stag {stag}"));
            format!(" send {start} {length} {opcode}{stag}")
        }
        Event::Terminate { layer, etype, code } => format!(" terminate {layer} {etype} {code}"),
    }
}
