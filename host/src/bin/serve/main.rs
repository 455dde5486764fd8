//! The program `serve`: takes iWARP connections over TCP and lets peers write into one store.
//!
//! All protocol is the proved library's. What is here is sockets ([`net`]), the loop, files, and the words that people read.
//! [`engine`] is the place where both meet.

mod config;
mod console;
mod engine;
mod log;
mod measure;
mod net;
mod pack;
mod pcap;
mod status;
mod sys;
mod words;

use std::fs;
use std::io;
use std::path::{Path, PathBuf};
use std::process::ExitCode;
use std::time::Duration;

use config::{Config, Wrong};
use console::Console;
use engine::Engine;
use log::{say, Log};
use net::Net;
use words::Words;

/// What `--help` says.
const HELP: &str = include_str!("help.txt");

/// How the program fails: with status 2 where its words or its configuration are wrong, else with 1.
pub enum Failure {
    Usage(String),
    Failed(String),
}

impl From<io::Error> for Failure {
    fn from(error: io::Error) -> Self {
        Failure::Failed(error.to_string())
    }
}

/// Does what the words on the command line say.
fn main() -> ExitCode {
    let words = Words::of_program();
    let done = match words.first() {
        None => Err(Failure::Usage(String::from("no CONFIG is named"))),
        Some("--help" | "-h") => {
            print!("{HELP}");
            Ok(())
        }
        Some("pack") => words.skip().and_then(pack::run),
        Some("measure") => words.skip().and_then(measure::run),
        Some(_) => serve(words),
    };
    match done {
        Ok(()) => ExitCode::SUCCESS,
        Err(Failure::Failed(words)) => {
            eprintln!("serve: {words}");
            ExitCode::from(1)
        }
        Err(Failure::Usage(words)) => {
            eprintln!("serve: {words}; ./serve --help says how it is used");
            ExitCode::from(2)
        }
    }
}

/// What the server is told beside its configuration.
#[derive(Default)]
struct Options {
    config: Option<PathBuf>,
    load: Option<PathBuf>,
    save: Option<PathBuf>,
    pcap: Option<PathBuf>,
    status: Option<Duration>,
}

impl Options {
    /// Reads them.
    fn read(mut words: Words) -> Result<Self, Failure> {
        let mut options = Options::default();
        while let Some(word) = words.next() {
            match word.as_str() {
                "--load" => options.load = Some(words.value(&word)?.into()),
                "--save" => options.save = Some(words.value(&word)?.into()),
                "--pcap" => options.pcap = Some(words.value(&word)?.into()),
                "--status" => match words.number(&word)? {
                    seconds @ 1..=86_400 => options.status = Some(Duration::from_secs(seconds)),
                    _ => {
                        let words = "--status takes 1 to 86400 seconds";
                        return Err(Failure::Usage(String::from(words)));
                    }
                },
                _ if word.starts_with('-') => return Err(words::unknown(&word)),
                _ if options.config.is_some() => {
                    return Err(Failure::Usage(format!("`{word}` is a second CONFIG")))
                }
                _ => options.config = Some(word.into()),
            }
        }
        Ok(options)
    }
}

/// Serves.
fn serve(words: Words) -> Result<(), Failure> {
    let options = Options::read(words)?;
    let Some(path) = &options.config else {
        return Err(Failure::Usage(String::from("no CONFIG is named")));
    };
    let config = read_config(path)?;
    let store = match &options.load {
        Some(path) => load(path, config.store)?,
        None => vec![0; config.store as usize],
    };
    let mut log = Log::to_stdout();
    let engine = Engine::new(config.clone(), store);
    let engine = engine.map_err(|error| Failure::Failed(error.to_string()))?;
    for (number, window) in &config.windows {
        let stag = number * 256 + window.key;
        let (length, base) = (window.length, window.base);
        say!(
            log,
            "window {number}: STag {stag:#x}, {length} bytes from tagged offset {base} on"
        );
    }
    let end = sys::end_signals();
    let mut net = Net::listen(&config, engine, log)?;
    if let Some(path) = &options.pcap {
        let created = net.capture(path);
        created.map_err(|error| failed("cannot write", path, error))?;
    }
    let ran = net.run(end, Some(Console::open()?), options.status);
    net.close();
    if let Some(path) = &options.save {
        let saved = save(path, &net.engine.store);
        saved.map_err(|error| failed("cannot write", path, error))?;
        say!(net.log, "the store is saved to {}", path.display());
    }
    say!(net.log, "the end");
    net.log.flush();
    Ok(ran?)
}

/// Reads the configuration; a wrong line is told by its number.
fn read_config(path: &Path) -> Result<Config, Failure> {
    let shown = path.display();
    let text =
        fs::read_to_string(path).map_err(|error| Failure::Usage(format!("{shown}: {error}")));
    Config::read(&text?).map_err(|Wrong { line, words }| {
        Failure::Usage(match line {
            Some(line) => format!("{shown}, line {line}: {words}"),
            None => format!("{shown}: {words}"),
        })
    })
}

/// Reads a store of so many bytes.
fn load(path: &Path, length: u64) -> Result<Vec<u8>, Failure> {
    let store = fs::read(path).map_err(|error| failed("cannot read", path, error))?;
    match store.len() as u64 {
        found if found == length => Ok(store),
        found => Err(Failure::Failed(format!(
            "{} has {found} bytes, and the store has {length}",
            path.display()
        ))),
    }
}

/// Writes a store beside the file that is named and puts it in its place, so that no half of one is left there.
fn save(path: &Path, store: &[u8]) -> io::Result<()> {
    let mut beside = path.as_os_str().to_owned();
    beside.push(".new");
    fs::write(&beside, store)?;
    fs::rename(&beside, path)
}

/// Says which file it was.
fn failed(what: &str, path: &Path, error: io::Error) -> Failure {
    Failure::Failed(format!("{what} {}: {error}", path.display()))
}
