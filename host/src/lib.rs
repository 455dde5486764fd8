//! A receiver for iWARP (RDMA over TCP), for Rust programs.
//!
//! A program keeps its TCP connections and gives what comes on them to a [`Device`], which checks each frame and places what peers
//! write in the store, a block of bytes of the program's. There is no I/O here.
//!
//! [`Device`] holds the state of four protection domains; the program keeps the store, up to 16 MiB, and lends it at
//! each [`Device::receive`] and [`Device::offer`]. Every function answers whatever the numbers and bytes are, and none
//! panics. The work is done by the proved static library; here its answer words become [`Received`], [`Offered`],
//! [`Closed`], [`ReadRequest`], [`Reading`] or [`Error`], and the words of the state are kept where nothing else writes them.
//! A [`Refusal`] says what a refusal's number means.
//!
//! A peer writes four bytes into a window, which its domain's gauge counts:
//!
//! ```
//! use rnic::{Device, Event, Reading, Received, Window, RIGHT_WRITE};
//!
//! let mut store = vec![0; 4096];
//! let mut device = Device::new();
//! device.open(4096, [0..1024, 1024..2048, 2048..3072, 3072..4096])?;
//! let window = Window { key: 5, base: 4096, length: 4, place: 1024, rights: RIGHT_WRITE };
//! device.register(17, window)?;
//! device.open_stream(4, false)?;
//!
//! let frame = [
//!     0x00, 0x12, 0xC1, 0x40, 0x00, 0x00, 0x11, 0x05, 0x00, 0x00, 0x00, 0x00,
//!     0x00, 0x00, 0x10, 0x00, 0xDE, 0xAD, 0xBE, 0xEF, 0x00, 0x00, 0x00, 0x00,
//! ];
//! let answer = device.receive(&mut store, 4, &frame)?;
//! assert_eq!(answer, Received::Taken { total: 24, event: Event::None });
//! assert_eq!(store[1024..1028], [0xDE, 0xAD, 0xBE, 0xEF]);
//!
//! device.tick(1)?;
//! assert_eq!(device.reading(1)?, Reading::Steady(4.0));
//! # Ok::<(), rnic::Error>(())
//! ```
//!
//! Bytes that come from TCP are cut anywhere. They are offered, and the device keeps what is not yet an FPDU, in [`Rooms`]
//! that the program lends with the store. The same write in two pieces, with the front of the next one:
//!
//! ```
//! # use rnic::{Device, Window, RIGHT_WRITE};
//! use rnic::{Event, Offered, Rooms};
//!
//! # let mut store = vec![0; 4096];
//! # let mut device = Device::new();
//! # device.open(4096, [0..1024, 1024..2048, 2048..3072, 3072..4096])?;
//! # let window = Window { key: 5, base: 4096, length: 4, place: 1024, rights: RIGHT_WRITE };
//! # device.register(17, window)?;
//! # device.open_stream(4, false)?;
//! # let frame = [
//! #     0x00, 0x12, 0xC1, 0x40, 0x00, 0x00, 0x11, 0x05, 0x00, 0x00, 0x00, 0x00,
//! #     0x00, 0x00, 0x10, 0x00, 0xDE, 0xAD, 0xBE, 0xEF, 0x00, 0x00, 0x00, 0x00,
//! # ];
//! let mut rooms = Rooms::new();
//! let mut events = Vec::new();
//! for piece in [&frame[..10], &[&frame[10..], &frame[..3]].concat()] {
//!     let mut rest = piece;
//!     while !rest.is_empty() {
//!         let taken = match device.offer(&mut store, &mut rooms, 4, rest)? {
//!             Offered::Kept { taken } => taken,
//!             Offered::Taken { taken, event, .. } => {
//!                 events.push(event);
//!                 taken
//!             }
//!             Offered::Ended(fault) => return Err(fault.into()),
//!         };
//!         rest = &rest[taken..];
//!     }
//! }
//! assert_eq!(events, [Event::None]);
//! assert_eq!(store[1024..1028], [0xDE, 0xAD, 0xBE, 0xEF]);
//! assert_eq!(device.held(4), 3);
//! # Ok::<(), Box<dyn std::error::Error>>(())
//! ```
//!
//! A [`Message`] is the other side: what a program sends, one segment after the other, each framed by [`write_fpdu`].
//!
//! Before the first FPDU each side sends a startup frame. A responder reads the request with [`read_startup`], answers its terms
//! with [`answer()`] and writes the reply, in the form of the request, with [`write_startup`]; an initiator writes the request,
//! reads the reply, and makes of its terms what [`settle`] says. Linux's software iWARP asks for one read each way:
//!
//! ```
//! use rnic::{answer, read_startup, write_startup, Form, Role, Startup, StartupRead, Terms};
//!
//! let request = [
//!     0x4D, 0x50, 0x41, 0x20, 0x49, 0x44, 0x20, 0x52, 0x65, 0x71, 0x20, 0x46, 0x72, 0x61, 0x6D, 0x65,
//!     0x10, 0x02, 0x00, 0x04, 0x00, 0x01, 0x00, 0x01,
//! ];
//! let StartupRead::Taken { total, frame, .. } = read_startup(Role::Request, &request)? else {
//!     panic!("more bytes are needed");
//! };
//! let Form::Enhanced(terms) = frame.form else {
//!     panic!("a request without terms is answered without terms");
//! };
//! let own = Terms { peer: false, ird: 8, ord: 8, kinds: 7 };
//! let answered = answer(own, terms)?;
//! assert_eq!((answered.kept.ird, answered.kept.ord), (8, 1));
//!
//! let form = Form::Enhanced(answered.reply);
//! let reply = Startup { crc: frame.crc, declined: false, form };
//! let mut out = [0; 24];
//! assert_eq!(write_startup(Role::Reply, reply, &[], &mut out)?, 24);
//! assert_eq!(out[20..], [0, 8, 0, 1]);
//! assert_eq!(total, 24);
//! # Ok::<(), rnic::Error>(())
//! ```

#![warn(missing_docs)]

mod answer;
mod device;
mod message;
#[allow(missing_docs)]
pub mod raw;
mod refusal;
mod rooms;
mod startup;
mod words;

pub use answer::{
    Closed, Error, Event, Fault, Offered, ReadRequest, Reading, Received, StreamState,
};
pub use device::{crc32c, crc32c_join, crc32c_update, stag, Device, Window};
pub use device::{OPCODE_SEND, OPCODE_SEND_INVALIDATE, OPCODE_SEND_SE, OPCODE_SEND_SE_INVALIDATE};
pub use device::{RIGHT_READ, RIGHT_WRITE};
pub use message::{read_fpdu, write_fpdu, FpduRead, Message};
pub use refusal::Refusal;
pub use rooms::Rooms;
pub use startup::{answer, read_startup, settle, write_startup};
pub use startup::{Answered, Form, Role, Startup, StartupRead, Terms};
pub use startup::{DEPTH_UNSAID, KIND_READ, KIND_SEND, KIND_WRITE};

/// The version of this crate, which is that of the header.
pub const VERSION: &str = env!("CARGO_PKG_VERSION");

/// Gives the version of this crate.
pub const fn version() -> &'static str {
    VERSION
}
