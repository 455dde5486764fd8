//! The configuration: one setting a line, each judged by the device itself before anybody connects.

mod words;

use std::net::{Ipv4Addr, SocketAddr};
use std::ops::Range;
use std::time::Duration;

use rnic::{Device, Error, Terms, Window, KIND_READ, KIND_SEND, KIND_WRITE};

pub use words::number;
use words::{depth_of, kind_of, listening, owner, rights_of, usage};

/// Domains of a device.
pub const DOMAINS: usize = 4;
/// Streams of a domain.
pub const STREAMS: usize = 4;
/// The first of the four ports where no line says another.
const PORT: u16 = 7700;

/// What is wrong with a configuration: the number of the line, where it is one line's fault, and the words.
#[derive(Debug, PartialEq, Eq)]
pub struct Wrong {
    pub line: Option<usize>,
    pub words: String,
}

/// The receive buffers of each stream of a domain, which stand one behind the other from `start` on, stream by stream.
#[derive(Clone, Copy, Debug, PartialEq, Eq)]
pub struct Buffers {
    pub count: u64,
    pub length: u64,
    pub start: u64,
}

impl Buffers {
    /// Gives where the buffers of one of the domain's streams start. A number past all stores comes out as one.
    pub fn places(&self, stream: usize) -> impl Iterator<Item = u64> {
        let Buffers {
            count,
            length,
            start,
        } = *self;
        let first = count.saturating_mul(stream as u64);
        (0..count)
            .map(move |i| start.saturating_add(length.saturating_mul(first.saturating_add(i))))
    }
}

/// All settings.
#[derive(Clone, Debug, PartialEq, Eq)]
pub struct Config {
    pub store: u64,
    pub parts: [Range<u64>; DOMAINS],
    pub listen: [Option<SocketAddr>; DOMAINS],
    pub buffers: [Option<Buffers>; DOMAINS],
    pub windows: Vec<(u64, Window)>,
    pub crc: bool,
    pub startup: Duration,
    pub terms: Terms,
}

/// A setting with the line that has it, once there is one.
type Setting<T> = Option<(usize, T)>;

/// The lines as they were read.
#[derive(Default)]
struct Lines {
    store: Setting<u64>,
    parts: [Setting<Range<u64>>; DOMAINS],
    listen: [Setting<Option<SocketAddr>>; DOMAINS],
    buffers: [Setting<Buffers>; DOMAINS],
    windows: Vec<(usize, (u64, Window))>,
    crc: Setting<bool>,
    startup: Setting<u64>,
    ird: Setting<u64>,
    ord: Setting<u64>,
    kinds: Setting<u64>,
}

impl Config {
    /// Reads a configuration and tries it on a device.
    pub fn read(text: &str) -> Result<Self, Wrong> {
        let mut lines = Lines::default();
        for (at, line) in (1..).zip(text.lines()) {
            let words = line.split('#').next().unwrap_or_default();
            let words: Vec<&str> = words.split_whitespace().collect();
            let read = match words.split_first() {
                None => Ok(()),
                Some((name, values)) => lines.setting(at, name, values),
            };
            read.map_err(|words| Wrong {
                line: Some(at),
                words,
            })?;
        }
        let config = lines.config()?;
        lines.judge(&config)?;
        Ok(config)
    }

    /// Opens a device with the windows.
    pub fn device(&self) -> Result<Device, Error> {
        let mut device = Device::new();
        device.open(self.store, self.parts.clone())?;
        for &(number, window) in &self.windows {
            device.register(number, window)?;
        }
        Ok(device)
    }
}

impl Lines {
    /// Takes one line.
    fn setting(&mut self, at: usize, name: &str, values: &[&str]) -> Result<(), String> {
        match (name, values) {
            ("store", [length]) => once(&mut self.store, at, number(length)?),
            ("part", [domain, start, end]) => {
                let part = number(start)?..number(end)?;
                once(&mut self.parts[owner(domain)?], at, part)
            }
            ("listen", [domain, address]) => {
                once(&mut self.listen[owner(domain)?], at, listening(address)?)
            }
            ("buffers", [domain, count, length, start]) => {
                let buffers = Buffers {
                    count: number(count)?,
                    length: number(length)?,
                    start: number(start)?,
                };
                once(&mut self.buffers[owner(domain)?], at, buffers)
            }
            ("window", [window, key, base, length, place, rights]) => {
                let registered = Window {
                    key: number(key)?,
                    base: number(base)?,
                    length: number(length)?,
                    place: number(place)?,
                    rights: rights_of(rights)?,
                };
                self.windows.push((at, (number(window)?, registered)));
                Ok(())
            }
            ("crc", ["on"]) => once(&mut self.crc, at, true),
            ("crc", ["off"]) => once(&mut self.crc, at, false),
            ("startup", [seconds]) => match number(seconds)? {
                seconds @ 1..=3600 => once(&mut self.startup, at, seconds),
                _ => Err(String::from("`startup` takes 1 to 3600 seconds")),
            },
            ("ird", [depth]) => once(&mut self.ird, at, depth_of(depth)?),
            ("ord", [depth]) => once(&mut self.ord, at, depth_of(depth)?),
            ("kinds", names) => {
                let mut kinds = names.iter().map(|name| kind_of(name));
                let kinds = kinds.try_fold(0, |all, kind| kind.map(|kind| all | kind))?;
                once(&mut self.kinds, at, kinds)
            }
            _ => Err(usage(name)),
        }
    }

    /// Puts the settings together, with what holds where there is none.
    fn config(&self) -> Result<Config, Wrong> {
        let Some((_, store)) = self.store else {
            return Err(missing("there is no line `store LENGTH`"));
        };
        let quarter = store / DOMAINS as u64;
        let parts = match self.parts.iter().flatten().count() {
            0 => std::array::from_fn(|domain| {
                let start = quarter * domain as u64;
                start..start + quarter
            }),
            DOMAINS => self.parts.clone().map(|part| part.unwrap_or_default().1),
            _ => return Err(missing("there are lines `part` for some domains alone")),
        };
        let default = |domain: usize| {
            let port = PORT + domain as u16;
            Some(SocketAddr::from((Ipv4Addr::LOCALHOST, port)))
        };
        Ok(Config {
            store,
            parts,
            listen: std::array::from_fn(|domain| {
                value(&self.listen[domain]).unwrap_or_else(|| default(domain))
            }),
            buffers: std::array::from_fn(|domain| value(&self.buffers[domain])),
            windows: self.windows.iter().map(|&(_, window)| window).collect(),
            crc: value(&self.crc).unwrap_or(false),
            startup: Duration::from_secs(value(&self.startup).unwrap_or(10)),
            terms: Terms {
                peer: false,
                ird: value(&self.ird).unwrap_or(8),
                ord: value(&self.ord).unwrap_or(8),
                kinds: value(&self.kinds).unwrap_or(KIND_SEND | KIND_WRITE | KIND_READ),
            },
        })
    }

    /// Tries each line on a device, so that a line that it would refuse is told here.
    fn judge(&self, config: &Config) -> Result<(), Wrong> {
        let mut device = self.opened(config)?;
        for &(at, (number, window)) in &self.windows {
            let registered = device.register(number, window);
            registered.map_err(|error| refused(Some(at), error))?;
        }
        for domain in 0..DOMAINS {
            if let Some((at, buffers)) = self.buffers[domain] {
                let posted = post_all(&mut device, domain, buffers);
                posted.map_err(|error| refused(Some(at), error))?;
            }
        }
        Ok(())
    }

    /// Opens a device part by part, so that the first part that does not fit is told.
    fn opened(&self, config: &Config) -> Result<Device, Wrong> {
        let mut device = Device::new();
        let store = self.store.as_ref().map(|&(at, _)| at);
        let none: [Range<u64>; DOMAINS] = Default::default();
        let opened = device.open(config.store, none);
        opened.map_err(|error| refused(store, error))?;
        for domain in 0..DOMAINS {
            let end = config.parts[domain].end;
            let parts = std::array::from_fn(|other| match other <= domain {
                true => config.parts[other].clone(),
                false => end..end,
            });
            let line = self.parts[domain].as_ref().map(|&(at, _)| at).or(store);
            let opened = device.open(config.store, parts);
            opened.map_err(|error| refused(line, error))?;
        }
        Ok(device)
    }
}

/// Opens the four streams of a domain and posts their buffers.
fn post_all(device: &mut Device, domain: usize, buffers: Buffers) -> Result<(), Error> {
    for stream in 0..STREAMS {
        let number = (STREAMS * domain + stream) as u64;
        device.open_stream(number, false)?;
        for place in buffers.places(stream) {
            device.post(number, place, buffers.length)?;
        }
    }
    Ok(())
}

/// Keeps a setting that has not been given before.
fn once<T>(setting: &mut Setting<T>, at: usize, value: T) -> Result<(), String> {
    match setting {
        Some((before, _)) => Err(format!("line {before} says this already")),
        None => {
            *setting = Some((at, value));
            Ok(())
        }
    }
}

/// Gives a setting's value.
fn value<T: Clone>(setting: &Setting<T>) -> Option<T> {
    setting.as_ref().map(|(_, value)| value.clone())
}

/// Says what is missing, which is no line's fault.
fn missing(words: &str) -> Wrong {
    Wrong {
        line: None,
        words: String::from(words),
    }
}

/// Says why the device refuses a line.
fn refused(line: Option<usize>, error: Error) -> Wrong {
    Wrong {
        line,
        words: error.to_string(),
    }
}
