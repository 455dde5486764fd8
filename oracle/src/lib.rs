//! An RDMA receiver (MPA, DDP, RDMAP) written as a plain state machine, driven by replay scripts.
//!
//! The wire forms (`crc`, `pieces`, `mpa`, `startup`, `startup2`, `ddp`, `rdmap`) know nothing of the state. Read `state`
//! first, then `device` for the calls, with `sharing`, and `receive`, whose rules stand in `judge` and `target`; `offer` is
//! receive on a stream that holds a partial FPDU. `script` runs the lines that `command` takes apart; `generate` writes
//! random ones. `sender` writes messages, and `agree` decides what the two ends of a startup keep; neither knows of the
//! device. `capture` reads streams of another implementation. `gauge` says how busy a domain is; `samples` runs one over a
//! file of samples.

pub mod agree;
pub mod bigendian;
pub mod capture;
pub mod command;
pub mod crc;
pub mod ddp;
pub mod device;
pub mod fifo;
pub mod gauge;
pub mod generate;
pub mod hex;
mod judge;
pub mod mpa;
pub mod offer;
pub mod pieces;
pub mod rdmap;
pub mod receive;
pub mod refusal;
pub mod samples;
pub mod script;
pub mod sender;
mod sharing;
pub mod startup;
pub mod startup2;
pub mod state;
pub mod tally;
mod target;
mod text;
mod words;
