//! The C interface as a Rust program sees it: its layout, its calls, its CRC, its messages, bytes cut anywhere, the questions,
//! startup, the stored scripts, and random nights beside the second program.

mod calls;
mod crc;
mod cuts;
mod header;
mod inputs;
mod layout;
mod messages;
mod nights;
mod questions;
mod stack;
mod startup;
mod stored;
mod support;
