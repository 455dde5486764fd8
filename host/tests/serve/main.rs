//! The program `serve` as its users see it: started as a process, spoken to over TCP, its log, its answers and the store that it
//! saves compared with the second program's.

mod config;
mod files;
mod misbehaving;
mod pack;
mod real;
mod sixteen;
mod startup;
mod support;
