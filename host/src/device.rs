//! The device: each call of the C interface as a safe function.

use std::fmt;
use std::mem::MaybeUninit;
use std::ops::Range;

use crate::answer::{Closed, Error, Offered, ReadRequest, Reading, Received, StreamState};
use crate::raw::{self, call, Arguments, Rnic, Words};
use crate::words;

/// The opcode of a Send.
pub const OPCODE_SEND: u8 = 3;
/// The opcode of a Send with Invalidate: the window of the STag that it names is dropped.
pub const OPCODE_SEND_INVALIDATE: u8 = 4;
/// The opcode of a Send with a solicited event: the receiver is to be woken.
pub const OPCODE_SEND_SE: u8 = 5;
/// The opcode of a Send with both.
pub const OPCODE_SEND_SE_INVALIDATE: u8 = 6;

/// The write bit of a window's rights.
pub const RIGHT_WRITE: u64 = 1;
/// The read bit of a window's rights.
pub const RIGHT_READ: u64 = 2;

/// What a window is registered with; peers name it by its [`stag`].
#[derive(Clone, Copy, Debug, PartialEq, Eq)]
pub struct Window {
    /// The key, 1 to 255, which is not the last one that the window had.
    pub key: u64,
    /// The tagged offset by which peers name its first byte.
    pub base: u64,
    /// How many bytes it has, at least 1; base + length is at most 2^64 - 1.
    pub length: u64,
    /// Where its first byte is in the store, in its domain's part.
    pub place: u64,
    /// [`RIGHT_WRITE`], [`RIGHT_READ`] or both, added.
    pub rights: u64,
}

/// Gives the STag by which peers name a window, 0 to 63, with its key, 1 to 255: the number times 256, plus the key.
pub const fn stag(window: u32, key: u32) -> u32 {
    window.wrapping_mul(256).wrapping_add(key)
}

/// A receiver with four domains, which owns its state; the store is lent at each receive, and the rooms at each offer.
///
/// Domain `d`, 0 to 3, has the streams from `4 * d` and the windows from `16 * d` on, four streams and sixteen windows. Numbers
/// out of range are refused with 1.
///
/// Two devices are equal where their words are, which turn on their calls alone; from then on the same calls have the same
/// answers on both, offers too where their rooms hold the same bytes.
#[derive(Clone, PartialEq, Eq)]
pub struct Device {
    state: Box<Rnic>,
}

impl Default for Device {
    /// Gives the same as `new`.
    fn default() -> Self {
        Device::new()
    }
}

impl fmt::Debug for Device {
    /// Writes the type's name alone, since the state is many words that say nothing.
    fn fmt(&self, out: &mut fmt::Formatter<'_>) -> fmt::Result {
        out.debug_struct("Device").finish_non_exhaustive()
    }
}

impl Device {
    /// Gives the device that a refused opening leaves: of length 0, with empty parts and no stream open.
    pub fn new() -> Self {
        Device {
            state: Box::new(Rnic::ZERO),
        }
    }

    /// Opens the device anew over a store of this length, 1 to 16,777,216, with a part for each domain: in order and apart, each
    /// perhaps empty. Refused, it is as a new one.
    pub fn open(&mut self, length: u64, parts: [Range<u64>; 4]) -> Result<(), Error> {
        let [a, b, c, d] = parts;
        let ends = [
            length, a.start, a.end, b.start, b.end, c.start, c.end, d.start, d.end,
        ];
        words::done(&self.call(call::OPEN, &ends))
    }

    /// Opens a stream, 0 to 15, with the CRC on or off, for one connection from behind its startup frames on.
    #[inline]
    pub fn open_stream(&mut self, stream: u64, crc: bool) -> Result<(), Error> {
        words::done(&self.call(call::OPEN_STREAM, &[stream, u64::from(crc)]))
    }

    /// Closes a stream and gives what was left on it.
    #[inline]
    pub fn close_stream(&mut self, stream: u64) -> Result<Closed, Error> {
        words::closed(&self.call(call::CLOSE_STREAM, &[stream]))
    }

    /// Registers a window under its number. With the write right it must share no byte with another live window of its
    /// domain that has it, nor with a buffer that waits on a stream of that domain: refusal 19.
    #[inline]
    pub fn register(&mut self, number: u64, window: Window) -> Result<(), Error> {
        let Window {
            key,
            base,
            length,
            place,
            rights,
        } = window;
        let arguments = [number, key, base, length, place, rights];
        words::done(&self.call(call::REGISTER, &arguments))
    }

    /// Drops a live window.
    #[inline]
    pub fn drop_window(&mut self, number: u64) -> Result<(), Error> {
        words::done(&self.call(call::DROP_WINDOW, &[number]))
    }

    /// Posts a receive buffer at the end of a stream's queue. It must share no byte with a live window of its domain that
    /// has the write right, nor with a buffer that waits on a stream of that domain: refusal 19.
    #[inline]
    pub fn post(&mut self, stream: u64, start: u64, length: u64) -> Result<(), Error> {
        words::done(&self.call(call::POST, &[stream, start, length]))
    }

    /// Takes the Read Request that waits longest on a stream; 11 where none does. A Read Request is received as a Write is, with
    /// [`crate::Event::None`]: to see it, take after what was received.
    #[inline]
    pub fn take(&mut self, stream: u64) -> Result<ReadRequest, Error> {
        words::read_request(&self.call(call::TAKE, &[stream]))
    }

    /// Counts the live windows of a domain.
    #[inline]
    pub fn live_count(&self, domain: u64) -> Result<u32, Error> {
        words::counted(&self.ask(call::LIVE_COUNT, domain))
    }

    /// Gives the lowest free one of a domain's sixteen slots, 16 if there is none.
    #[inline]
    pub fn lowest_free(&self, domain: u64) -> Result<u32, Error> {
        words::counted(&self.ask(call::LOWEST_FREE, domain))
    }

    /// Says what a stream is, closed, open, or ended and by what, with what waits on it.
    #[inline]
    pub fn state(&self, stream: u64) -> Result<StreamState, Error> {
        words::stated(&self.ask(call::STATE, stream))
    }

    /// Takes the count of the bytes placed for a domain since its last tick as a sample of its gauge, and clears it. The first
    /// sample sets the gauge's level and its peak; from then on the level goes an eighth of the way to each.
    #[inline]
    pub fn tick(&mut self, domain: u64) -> Result<(), Error> {
        words::done(&self.call(call::TICK, &[domain]))
    }

    /// Gives what a domain's gauge reads as.
    #[inline]
    pub fn reading(&self, domain: u64) -> Result<Reading, Error> {
        words::reading(&self.ask(call::READING, domain))
    }

    /// Takes the first FPDU of some bytes for a stream; the whole store is lent. It is refused with 16 while the stream holds
    /// bytes of an offer.
    #[inline]
    pub fn receive(
        &mut self,
        store: &mut [u8],
        stream: u64,
        bytes: &[u8],
    ) -> Result<Received, Error> {
        let mut answer = MaybeUninit::uninit();
        // SAFETY: each pointer is that of a reference held for the call, with its slice's own length; the state, the
        // store and the answer are borrowed for writing, so none of the four overlaps another. Each entry writes all
        // words of its answer, which its contract says, and reads none.
        let answer = unsafe {
            raw::rnic_c_receive(
                &mut *self.state,
                store.as_mut_ptr(),
                store.len(),
                stream,
                bytes.as_ptr(),
                bytes.len(),
                answer.as_mut_ptr(),
            );
            answer.assume_init_ref()
        };
        words::received(answer)
    }

    /// Takes bytes for a stream that may be cut anywhere, up to the end of the first FPDU that they complete; what completes
    /// none is kept in the stream's room. The caller offers the rest again, as long as there is some. The whole store is lent,
    /// and all of the [`crate::Rooms`] as the last offer left them.
    #[inline]
    pub fn offer(
        &mut self,
        store: &mut [u8],
        rooms: &mut [u8],
        stream: u64,
        bytes: &[u8],
    ) -> Result<Offered, Error> {
        let mut answer = MaybeUninit::uninit();
        // SAFETY: as in `receive`; the rooms are borrowed for writing, too.
        let answer = unsafe {
            raw::rnic_c_offer(
                &mut *self.state,
                store.as_mut_ptr(),
                store.len(),
                rooms.as_mut_ptr(),
                rooms.len(),
                stream,
                bytes.as_ptr(),
                bytes.len(),
                answer.as_mut_ptr(),
            );
            answer.assume_init_ref()
        };
        words::offered(answer)
    }

    /// Gives how many bytes a stream holds: 0 where it is closed or has ended, and where there is no such stream.
    #[inline]
    pub fn held(&self, stream: u64) -> u32 {
        // SAFETY: the pointer is that of a reference held for the call; the other is a number.
        unsafe { raw::rnic_c_held(&*self.state, stream) }
    }

    /// Makes a call that is lent neither store nor bytes and gives its answer's words; arguments left out are 0.
    #[inline]
    fn call(&mut self, number: u64, given: &[u64]) -> Words {
        let mut arguments: Arguments = [0; 9];
        for (argument, value) in arguments.iter_mut().zip(given) {
            *argument = *value;
        }
        // SAFETY: the pointer is that of a reference for writing, held for the call.
        unsafe { call_alone(&mut *self.state, number, &arguments) }
    }

    /// Asks a question, one of the calls that change nothing, about a domain or a stream.
    #[inline]
    fn ask(&self, number: u64, about: u64) -> Words {
        let device = std::ptr::from_ref(&*self.state).cast_mut();
        // SAFETY: the pointer is that of a reference held for the call, and nothing is written through it: the library's
        // functions for the questions are lent the device for reading alone. A test asks them of words that cannot be written.
        unsafe { call_alone(device, number, &[about, 0, 0, 0, 0, 0, 0, 0, 0]) }
    }
}

/// Makes a call that is lent neither store nor bytes and gives its answer's words.
///
/// # Safety
/// `device` points at a value that is held for the call, and that nothing else uses meanwhile; of a question it is read alone.
#[inline]
unsafe fn call_alone(device: *mut Rnic, number: u64, arguments: &Arguments) -> Words {
    let mut answer = MaybeUninit::uninit();
    let store: &mut [u8] = &mut [];
    let bytes: &[u8] = &[];
    // SAFETY: the caller answers for the device; the two slices are empty, and their pointers are not null. The answer is
    // written whole, as in `receive`.
    unsafe {
        raw::rnic_c_call(
            device,
            store.as_mut_ptr(),
            store.len(),
            number,
            arguments,
            bytes.as_ptr(),
            bytes.len(),
            answer.as_mut_ptr(),
        );
        answer.assume_init()
    }
}

/// Gives the CRC-32C of some bytes, by the proved routine that receive uses.
pub fn crc32c(bytes: &[u8]) -> u32 {
    // SAFETY: the pointer and the length are those of a slice that is held for the call.
    unsafe { raw::rnic_c_crc32c(bytes.as_ptr(), bytes.len()) }
}

/// Carries a running value of the CRC-32C on over a piece more. It starts as all ones, `!0`, and its inverse is the CRC
/// of the pieces so far: to go on from a CRC, start with its inverse.
pub fn crc32c_update(running: u32, bytes: &[u8]) -> u32 {
    // SAFETY: the pointer and the length are those of a slice that is held for the call.
    unsafe { raw::rnic_c_crc32c_update(running, bytes.as_ptr(), bytes.len()) }
}

/// Gives the CRC-32C of two pieces together, from the CRC-32C of each and the second's length in bytes.
pub fn crc32c_join(first: u32, second: u32, second_length: u32) -> u32 {
    // SAFETY: the function takes numbers alone.
    unsafe { raw::rnic_c_crc32c_join(first, second, second_length) }
}
