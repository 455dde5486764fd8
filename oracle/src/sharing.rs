//! Two writers on one spot: the bytes that a domain's peers may write to, and whether others lie among them.

use std::ops::Range;

use crate::state::{Buffer, Device, Window};
use crate::state::{RIGHT_WRITE, STREAMS_PER_DOMAIN, WINDOWS_PER_DOMAIN};

impl Window {
    /// Says whether peers may write to it now.
    fn is_written(&self) -> bool {
        self.live && self.rights & RIGHT_WRITE != 0
    }

    /// Gives its bytes in the store.
    fn bytes(&self) -> Range<u64> {
        self.place..self.place + self.length
    }
}

impl Buffer {
    /// Gives its bytes in the store.
    fn bytes(&self) -> Range<u64> {
        self.start..self.start + self.length
    }
}

impl Device {
    /// Gives the bytes of each of a domain's live windows with the write right and of each buffer that waits on one of its
    /// streams, ended or not.
    pub(crate) fn written(&self, domain: usize) -> impl Iterator<Item = Range<u64>> + '_ {
        let windows = self.windows[domain * WINDOWS_PER_DOMAIN..].iter();
        let streams = self.streams[domain * STREAMS_PER_DOMAIN..].iter();
        let windows = windows
            .take(WINDOWS_PER_DOMAIN)
            .filter(|window| window.is_written())
            .map(Window::bytes);
        let buffers = streams
            .take(STREAMS_PER_DOMAIN)
            .flat_map(|stream| stream.buffers.iter())
            .map(|buffer| buffer.bytes());
        windows.chain(buffers)
    }

    /// Says whether `length` bytes from `place`, inside a domain's part, share one with what its peers may write to.
    pub(crate) fn is_shared(&self, domain: usize, place: u64, length: u64) -> bool {
        let end = place + length;
        self.written(domain)
            .any(|other| other.start.max(place) < other.end.min(end))
    }
}
