//! Bytes at a chosen place of their page, so that what a copy costs does not turn on where the allocator puts them: with the
//! destination up to some thirty bytes behind the source, modulo a page, the C library's copy of more than two thousand
//! bytes is several times slower on some processors.

use std::ops::{Deref, DerefMut};

/// Bytes of a page.
const PAGE: usize = 4096;
/// Where in their pages a store, FPDUs and rooms stand: far from each other.
pub const STORE: usize = 0;
pub const FPDU: usize = PAGE / 2;
pub const ROOMS: usize = PAGE / 4;

/// Bytes that start at a place of their page.
pub struct Placed {
    bytes: Vec<u8>,
    start: usize,
    length: usize,
}

impl Placed {
    /// Gives so many zeros.
    pub fn zeros(place: usize, length: usize) -> Self {
        let bytes = vec![0; length + PAGE];
        let start = place.wrapping_sub(bytes.as_ptr() as usize) % PAGE;
        Placed {
            bytes,
            start,
            length,
        }
    }

    /// Gives so many zeros, a quarter of a page behind some bytes.
    pub fn behind(bytes: &[u8], length: usize) -> Self {
        Placed::zeros(bytes.as_ptr() as usize % PAGE + PAGE / 4, length)
    }

    /// Gives a copy of some bytes.
    pub fn copy(place: usize, bytes: &[u8]) -> Self {
        let mut placed = Placed::zeros(place, bytes.len());
        placed.copy_from_slice(bytes);
        placed
    }
}

/// Gives the bytes of each, as they are timed: a `Placed` finds its start each time that it is asked.
pub fn slices(placed: &[Placed]) -> Vec<&[u8]> {
    placed.iter().map(|bytes| &bytes[..]).collect()
}

impl Deref for Placed {
    type Target = [u8];

    /// Gives the bytes.
    fn deref(&self) -> &[u8] {
        &self.bytes[self.start..self.start + self.length]
    }
}

impl DerefMut for Placed {
    /// Gives the bytes, to be written.
    fn deref_mut(&mut self) -> &mut [u8] {
        &mut self.bytes[self.start..self.start + self.length]
    }
}
