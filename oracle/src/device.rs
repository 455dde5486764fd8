//! Every call on the box but receive and offer.

use crate::gauge::Reading;
use crate::rdmap::ReadRequest;
use crate::refusal::Refusal;
use crate::state::{stream_domain, window_domain, Buffer, Condition, Device, Part, Stream, Window};
use crate::state::{DOMAINS, MAX_STORE, RIGHT_WRITE, STREAMS, WINDOWS, WINDOWS_PER_DOMAIN};

/// Takes a number that is below `limit` as an index.
fn index(number: u64, limit: usize) -> Result<usize, Refusal> {
    if number < limit as u64 {
        Ok(number as usize)
    } else {
        Err(Refusal::OutOfRange)
    }
}

/// Says whether the parts stand in order inside a store of this length.
fn parts_fit(length: u64, parts: &[Part; DOMAINS]) -> bool {
    let mut free_from = 0;
    for part in parts {
        if part.start < free_from || part.end < part.start || part.end > length {
            return false;
        }
        free_from = part.end;
    }
    true
}

impl Device {
    /// Opens the box anew; refused, it is left with length 0 and empty parts.
    pub fn open(&mut self, length: u64, parts: [Part; DOMAINS]) -> Result<(), Refusal> {
        *self = Device::default();
        if !(1..=MAX_STORE).contains(&length) {
            return Err(Refusal::OutOfRange);
        }
        if !parts_fit(length, &parts) {
            return Err(Refusal::Extent);
        }
        self.length = length;
        self.parts = parts;
        Ok(())
    }

    /// Opens a stream with the CRC on or off.
    pub fn open_stream(&mut self, stream: u64, crc: bool) -> Result<(), Refusal> {
        let record = &mut self.streams[index(stream, STREAMS)?];
        if record.condition != Condition::Closed {
            return Err(Refusal::AlreadyOpen);
        }
        *record = Stream {
            condition: Condition::Open,
            crc,
            next_msn: [1; 3],
            ..Stream::default()
        };
        Ok(())
    }

    /// Closes a stream and gives its numbers of unfinished buffers and untaken reads.
    pub fn close_stream(&mut self, stream: u64) -> Result<(usize, usize), Refusal> {
        let record = &mut self.streams[index(stream, STREAMS)?];
        if record.condition == Condition::Closed {
            return Err(Refusal::NotOpen);
        }
        Ok(std::mem::take(record).waiting())
    }

    /// Gives a stream's condition, with the numbers that closing it would give.
    pub fn state(&self, stream: u64) -> Result<(Condition, (usize, usize)), Refusal> {
        let record = &self.streams[index(stream, STREAMS)?];
        Ok((record.condition, record.waiting()))
    }

    /// Registers a window; with the write right it shares no byte with what the domain's peers may write to.
    pub fn register(
        &mut self,
        window: u64,
        key: u64,
        base: u64,
        length: u64,
        place: u64,
        rights: u64,
    ) -> Result<(), Refusal> {
        let number = index(window, WINDOWS)?;
        if !(1..=255).contains(&key) || !(1..=3).contains(&rights) {
            return Err(Refusal::OutOfRange);
        }
        let domain = window_domain(number);
        let entry = self.windows[number];
        if entry.live {
            return Err(Refusal::WindowLive);
        }
        if u64::from(entry.key) == key {
            return Err(Refusal::KeyReused);
        }
        if !self.parts[domain].holds(place, length) || base.checked_add(length).is_none() {
            return Err(Refusal::Extent);
        }
        let rights = rights as u8;
        if rights & RIGHT_WRITE != 0 && self.is_shared(domain, place, length) {
            return Err(Refusal::Shared);
        }
        self.windows[number] = Window {
            live: true,
            key: key as u8,
            base,
            length,
            place,
            rights,
        };
        Ok(())
    }

    /// Drops a live window.
    pub fn drop_window(&mut self, window: u64) -> Result<(), Refusal> {
        let entry = &mut self.windows[index(window, WINDOWS)?];
        if !entry.live {
            return Err(Refusal::WindowDead);
        }
        entry.live = false;
        Ok(())
    }

    /// Posts a receive buffer at the end of a stream's queue; it shares no byte with what the domain's peers may write to.
    pub fn post(&mut self, stream: u64, start: u64, length: u64) -> Result<(), Refusal> {
        let number = self.usable(stream)?;
        let domain = stream_domain(number);
        if !self.parts[domain].holds(start, length) {
            return Err(Refusal::Extent);
        }
        if self.streams[number].buffers.is_full() {
            return Err(Refusal::BuffersFull);
        }
        if self.is_shared(domain, start, length) {
            return Err(Refusal::Shared);
        }
        let buffer = Buffer { start, length };
        self.streams[number].buffers.push(buffer);
        Ok(())
    }

    /// Takes the oldest waiting read of a stream.
    pub fn take_read(&mut self, stream: u64) -> Result<ReadRequest, Refusal> {
        let number = self.usable(stream)?;
        self.streams[number].reads.pop().ok_or(Refusal::NoRead)
    }

    /// Counts the live windows of a domain.
    pub fn live(&self, domain: u64) -> Result<usize, Refusal> {
        let slots = self.slots(domain)?;
        Ok(slots.iter().filter(|window| window.live).count())
    }

    /// Gives the lowest free slot of a domain, 16 if there is none.
    pub fn free(&self, domain: u64) -> Result<usize, Refusal> {
        let slots = self.slots(domain)?;
        let lowest = slots.iter().position(|window| !window.live);
        Ok(lowest.unwrap_or(WINDOWS_PER_DOMAIN))
    }

    /// Makes the count of a domain's placed bytes a sample of its gauge, and clears it.
    pub fn tick(&mut self, domain: u64) -> Result<(), Refusal> {
        let domain = index(domain, DOMAINS)?;
        let sample = std::mem::take(&mut self.placed[domain]);
        self.gauges[domain].take(sample);
        Ok(())
    }

    /// Gives what a domain's gauge reads as.
    pub fn reading(&self, domain: u64) -> Result<Reading, Refusal> {
        Ok(self.gauges[index(domain, DOMAINS)?].reading())
    }

    /// Gives the sixteen windows of a domain.
    fn slots(&self, domain: u64) -> Result<&[Window], Refusal> {
        let first = index(domain, DOMAINS)? * WINDOWS_PER_DOMAIN;
        Ok(&self.windows[first..first + WINDOWS_PER_DOMAIN])
    }

    /// Takes a stream number whose stream is open and not ended.
    pub(crate) fn usable(&self, stream: u64) -> Result<usize, Refusal> {
        let number = index(stream, STREAMS)?;
        match self.streams[number].condition {
            Condition::Closed => Err(Refusal::NotOpen),
            Condition::Open => Ok(number),
            Condition::Faulted(_) | Condition::Terminated => Err(Refusal::Ended),
        }
    }
}
