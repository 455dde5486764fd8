//! What an STag and a tagged offset name: a window of the stream's domain, and a range inside it.

use crate::state::{stream_domain, window_domain, Device, Window, WINDOWS};

/// Why an STag names no window of the stream's domain.
pub(crate) enum StagError {
    OtherDomain,
    NotLive,
}

/// Why a range of tagged offsets is not inside a window.
pub(crate) enum RangeError {
    Wrap,
    Outside,
}

impl Device {
    /// Finds the live window that an STag names, asking first whose it is.
    pub(crate) fn window(&self, stream: usize, stag: u32) -> Result<&Window, StagError> {
        let number = (stag >> 8) as usize;
        if number >= WINDOWS {
            return Err(StagError::NotLive);
        }
        if window_domain(number) != stream_domain(stream) {
            return Err(StagError::OtherDomain);
        }
        let window = &self.windows[number];
        if window.live && window.key == stag as u8 {
            Ok(window)
        } else {
            Err(StagError::NotLive)
        }
    }
}

/// Asks whether `length` bytes from tagged offset `to` lie inside a window, computed with the carry.
pub(crate) fn check_range(window: &Window, to: u64, length: u64) -> Result<(), RangeError> {
    let end = u128::from(to) + u128::from(length);
    if end > 1 << 64 {
        return Err(RangeError::Wrap);
    }
    if to < window.base || end > u128::from(window.base) + u128::from(window.length) {
        return Err(RangeError::Outside);
    }
    Ok(())
}
