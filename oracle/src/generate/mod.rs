//! Random scripts, the same for the same seed.

mod calls;
pub mod draft;
mod faults;
pub mod frames;
pub mod interleave;
mod longest;
pub mod malformed;
pub mod messages;
pub mod nights;
mod offering;
mod openings;
mod pieces;
mod places;
pub mod prng;
mod receiving;
pub mod samples;
pub mod segments;
mod startups;
mod startups2;
mod states;
