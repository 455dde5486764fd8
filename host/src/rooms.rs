//! The rooms in which streams hold what came of an FPDU that is not whole.

use std::fmt;
use std::ops::{Deref, DerefMut};

use crate::raw::ROOMS;

/// One room of the longest FPDU for each of the sixteen streams of a device, to be lent at each offer. Of these bytes only
/// those that a stream holds count, so that a new device may be lent rooms with anything in them.
#[derive(Clone)]
pub struct Rooms {
    bytes: Box<[u8]>,
}

impl Rooms {
    /// Gives rooms of zeros.
    pub fn new() -> Self {
        Rooms {
            bytes: vec![0; ROOMS].into_boxed_slice(),
        }
    }
}

impl Default for Rooms {
    /// Gives the same as `new`.
    fn default() -> Self {
        Rooms::new()
    }
}

impl fmt::Debug for Rooms {
    /// Writes the type's name alone, since most of the bytes say nothing.
    fn fmt(&self, out: &mut fmt::Formatter<'_>) -> fmt::Result {
        out.debug_struct("Rooms").finish_non_exhaustive()
    }
}

impl Deref for Rooms {
    type Target = [u8];

    /// Gives all of the bytes.
    fn deref(&self) -> &[u8] {
        &self.bytes
    }
}

impl DerefMut for Rooms {
    /// Gives all of the bytes, to be lent.
    fn deref_mut(&mut self) -> &mut [u8] {
        &mut self.bytes
    }
}
