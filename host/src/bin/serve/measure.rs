//! How fast it is on loopback, and how even: one connection and sixteen, the CRC on and off, by each driver, beside a plain TCP
//! copy of the same bytes in the same run.

mod server;
mod threads;
mod trial;
mod turns;

use std::time::Duration;

use crate::words::Words;
use crate::Failure;

use server::Driver;
use trial::trial;

/// Bytes of each connection's window, which is written over and over.
const WINDOW: usize = 256 * 1024;
/// How often each case is timed; the median is told.
const TRIALS: usize = 3;
/// How many connections there are, and whether the CRC is on.
const CASES: [(usize, bool); 4] = [(1, false), (1, true), (16, false), (16, true)];
/// The drivers that take the protocol's bytes.
const DRIVERS: [Driver; 3] = [Driver::OneThread, Driver::ComeBy, Driver::InTurn];

/// Times all cases.
pub fn run(mut words: Words) -> Result<(), Failure> {
    let megabytes = match words.next() {
        None => 256,
        Some(word) => crate::config::number(&word).map_err(Failure::Usage)?,
    };
    if !(1..=100_000).contains(&megabytes) {
        let words = "measure takes 1 to 100000 megabytes";
        return Err(Failure::Usage(String::from(words)));
    }
    let load = std::fs::read_to_string("/proc/loadavg").unwrap_or_default();
    println!(
        "{megabytes} MB of Writes in all, ULPDUs of 8,192 bytes; the median of {TRIALS}; load before: {}",
        load.split(' ').take(3).collect::<Vec<_>>().join(" ")
    );
    speeds(megabytes)?;
    waits(megabytes)
}

/// Writes how fast each driver is.
fn speeds(megabytes: u64) -> Result<(), Failure> {
    println!("MB a second of time, and of both sides' processor time; by threads: the lock had by who comes by, or in turn");
    println!("                           plain copy     one thread     threads        in turn");
    for (connections, crc) in CASES {
        let mut line = named(connections, crc);
        for driver in [Driver::Plain].into_iter().chain(DRIVERS) {
            let (rate, of_processor) = median(driver, connections, crc, megabytes)?;
            line += &format!("  {rate:6.0} {of_processor:6.0}");
        }
        println!("{line}");
    }
    Ok(())
}

/// Writes how long a newcomer waits meanwhile, and how even the connections are.
fn waits(megabytes: u64) -> Result<(), Failure> {
    println!("While another peer asks for a stream again and again: milliseconds until its reply, median and longest;");
    println!("and the time of the connection that is through first, as a part of the last one's");
    println!("                           one thread            threads               in turn");
    for (connections, crc) in CASES {
        let mut line = named(connections, crc);
        for driver in DRIVERS {
            let rounds = rounds(connections, megabytes);
            let trial = trial(driver, connections, crc, rounds, true)?;
            let wait = |at: usize| trial.waits.get(at).map_or(0.0, milliseconds);
            let count = trial.waits.len();
            line += &format!(
                "  {:6.2} {:6.2} {:5.2}",
                wait(count / 2),
                wait(count.saturating_sub(1)),
                milliseconds(&trial.first) / milliseconds(&trial.last)
            );
        }
        println!("{line}");
    }
    Ok(())
}

/// Names a case.
fn named(connections: usize, crc: bool) -> String {
    let crc = if crc { "on" } else { "off" };
    format!("{connections:2} connections, CRC {crc:3}")
}

/// Gives a time in milliseconds.
fn milliseconds(time: &Duration) -> f64 {
    time.as_secs_f64() * 1e3
}

/// Gives how often each connection writes its window.
fn rounds(connections: usize, megabytes: u64) -> u64 {
    (megabytes * 1_000_000).div_ceil((WINDOW * connections) as u64)
}

/// Gives payload megabytes a second: the median of some trials, and those a second of processor time of all of them together.
fn median(
    driver: Driver,
    connections: usize,
    crc: bool,
    megabytes: u64,
) -> Result<(f64, f64), Failure> {
    let rounds = rounds(connections, megabytes);
    let payload = rounds as f64 * (WINDOW * connections) as f64 / 1e6;
    let mut rates = Vec::new();
    let before = processor_seconds();
    for _ in 0..TRIALS {
        let trial = trial(driver, connections, crc, rounds, false)?;
        rates.push(payload / trial.last.as_secs_f64());
    }
    let used = (processor_seconds() - before).max(0.01);
    rates.sort_by(f64::total_cmp);
    Ok((rates[TRIALS / 2], payload * TRIALS as f64 / used))
}

/// Gives the processor time that this program has used, which the system counts in hundredths of a second; 0 where it does not.
fn processor_seconds() -> f64 {
    let stat = std::fs::read_to_string("/proc/self/stat").unwrap_or_default();
    // The program's name may have spaces in it, and ends with the last bracket; the times are the fields 14 and 15.
    let fields = stat.rsplit(')').next().unwrap_or_default();
    let fields = fields.split_whitespace().skip(11).take(2);
    fields
        .filter_map(|field| field.parse::<f64>().ok())
        .sum::<f64>()
        / 100.0
}

/// Says what failed.
fn failed(words: &str) -> Failure {
    Failure::Failed(String::from(words))
}

/// Says which refusal of the library it was.
fn refused(error: rnic::Error) -> Failure {
    failed(&error.to_string())
}
