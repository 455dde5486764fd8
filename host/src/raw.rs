//! The C interface as `include/rnic.h` declares it; [`crate::Device`] is the safe way to it.

/// How many words a device has: `RNIC_C_DEVICE_WORDS` of the header.
pub const DEVICE_WORDS: usize = 945;

/// A device, `struct rnic` of the header. Any words are one.
#[derive(Clone, Copy, Debug, PartialEq, Eq)]
#[repr(C)]
pub struct Rnic {
    pub words: [u64; DEVICE_WORDS],
}

impl Rnic {
    /// The device that a refused opening leaves.
    pub const ZERO: Rnic = Rnic {
        words: [0; DEVICE_WORDS],
    };
}

/// Bytes of one stream's room, the longest FPDU: `RNIC_C_ROOM` of the header.
pub const ROOM: usize = 8200;
/// Bytes of the rooms of all sixteen streams, which an offer is lent: `RNIC_C_ROOMS` of the header.
pub const ROOMS: usize = 16 * ROOM;

/// The nine argument words of a call, those that it does not use being passed over.
pub type Arguments = [u64; 9];
/// The eight words of an answer, the first its kind and those without a use 0.
pub type Words = [u64; 8];

/// A message under way, `struct rnic_message` of the header. Any words are one.
#[derive(Clone, Copy, Debug, PartialEq, Eq)]
#[repr(C)]
pub struct RnicMessage {
    pub words: [u64; 9],
}

/// The two words of a writer's answer, its kind and its number.
pub type Written = [u64; 2];

/// What the reader of FPDUs answers: a kind of `kind`, REFUSED, WAIT or TAKEN, and what goes with it.
pub type FpduWords = [u64; 4];

/// The kinds of the writers' answers.
pub mod written {
    pub const NOT_WRITTEN: u64 = 0;
    pub const WROTE: u64 = 1;
    pub const NO_MORE: u64 = 2;
}

/// What a side says of itself in a startup, `struct rnic_terms` of the header.
#[derive(Clone, Copy, Debug, PartialEq, Eq)]
#[repr(C)]
pub struct RnicTerms {
    pub peer: u64,
    pub ird: u64,
    pub ord: u64,
    pub kinds: u64,
}

/// A startup frame, `struct rnic_startup` of the header.
#[derive(Clone, Copy, Debug, PartialEq, Eq)]
#[repr(C)]
pub struct RnicStartup {
    pub kind: u64,
    pub total: u64,
    pub start: u64,
    pub crc: u64,
    pub declined: u64,
    pub terms: RnicTerms,
}

/// The kinds of a startup frame.
pub mod startup {
    pub const REFUSED: u64 = 0;
    pub const FIRST: u64 = 1;
    pub const SECOND: u64 = 2;
    pub const ENHANCED: u64 = 3;
    pub const WAIT: u64 = 5;
}

/// The numbers of the calls.
pub mod call {
    pub const OPEN: u64 = 0;
    pub const OPEN_STREAM: u64 = 1;
    pub const CLOSE_STREAM: u64 = 2;
    pub const REGISTER: u64 = 3;
    pub const DROP_WINDOW: u64 = 4;
    pub const POST: u64 = 5;
    pub const TAKE: u64 = 6;
    pub const LIVE_COUNT: u64 = 7;
    pub const LOWEST_FREE: u64 = 8;
    pub const RECEIVE: u64 = 9;
    pub const TICK: u64 = 10;
    pub const READING: u64 = 11;
    pub const STATE: u64 = 12;
}

/// What a stream is, in the second word of its state.
pub mod stream {
    pub const CLOSED: u64 = 0;
    pub const OPEN: u64 = 1;
    pub const ENDED: u64 = 2;
    pub const TERMINATED: u64 = 3;
}

/// The kinds of answers, which stand in an answer's first word.
pub mod kind {
    pub const REFUSED: u64 = 0;
    pub const DONE: u64 = 1;
    pub const CLOSED: u64 = 2;
    pub const READ: u64 = 3;
    pub const COUNTED: u64 = 4;
    pub const WAIT: u64 = 5;
    pub const TAKEN: u64 = 6;
    pub const SENT: u64 = 7;
    pub const SENT_INVALIDATING: u64 = 8;
    pub const TERMINATED: u64 = 9;
    pub const ENDED: u64 = 10;
    pub const KEPT: u64 = 11;
    pub const QUIET: u64 = 12;
    pub const STEADY: u64 = 13;
    pub const FALLING: u64 = 14;
    pub const STATED: u64 = 15;
}

extern "C" {
    /// Makes the call of a number; a number that is no call's is answered as refusal 1.
    ///
    /// # Safety
    /// `device`, `arguments` and `answer` point at values that nothing else uses meanwhile, `store` at `store_len`
    /// bytes and `bytes` at `bytes_len`, none of which overlap; a length of 0 needs a pointer that is not null.
    pub fn rnic_c_call(
        device: *mut Rnic,
        store: *mut u8,
        store_len: usize,
        number: u64,
        arguments: *const Arguments,
        bytes: *const u8,
        bytes_len: usize,
        answer: *mut Words,
    );

    /// Takes the first FPDU of some bytes for a stream: the call of number 9, without the way through the numbers.
    ///
    /// # Safety
    /// As for `rnic_c_call`.
    pub fn rnic_c_receive(
        device: *mut Rnic,
        store: *mut u8,
        store_len: usize,
        stream: u64,
        bytes: *const u8,
        bytes_len: usize,
        answer: *mut Words,
    );

    /// Takes the bytes of an offer for a stream up to the end of the first FPDU that they complete, or keeps them all.
    ///
    /// # Safety
    /// As for `rnic_c_call`; `rooms` points at `rooms_len` bytes, which overlap none of the others.
    pub fn rnic_c_offer(
        device: *mut Rnic,
        store: *mut u8,
        store_len: usize,
        rooms: *mut u8,
        rooms_len: usize,
        stream: u64,
        bytes: *const u8,
        bytes_len: usize,
        answer: *mut Words,
    );

    /// Gives how many bytes a stream holds.
    ///
    /// # Safety
    /// `device` points at a value that nothing else writes meanwhile.
    pub fn rnic_c_held(device: *const Rnic, stream: u64) -> u32;

    /// Gives the CRC-32C of some bytes.
    ///
    /// # Safety
    /// `bytes` points at `bytes_len` bytes; a length of 0 needs a pointer that is not null.
    pub fn rnic_c_crc32c(bytes: *const u8, bytes_len: usize) -> u32;

    /// Carries a running value of the CRC-32C on over some bytes.
    ///
    /// # Safety
    /// As for `rnic_c_crc32c`.
    pub fn rnic_c_crc32c_update(running: u32, bytes: *const u8, bytes_len: usize) -> u32;

    /// Gives the CRC-32C of two pieces together, from theirs and the second's length.
    ///
    /// # Safety
    /// It takes numbers alone: any will do.
    pub fn rnic_c_crc32c_join(first: u32, second: u32, second_len: u32) -> u32;

    /// Begins a Write: 0, or a refusal's number.
    ///
    /// # Safety
    /// `message` points at a value that nothing else uses meanwhile.
    pub fn rnic_c_message_write(
        message: *mut RnicMessage,
        limit: u64,
        stag: u64,
        to: u64,
        length: u64,
    ) -> u32;

    /// Begins a Send: 0, or a refusal's number.
    ///
    /// # Safety
    /// As for `rnic_c_message_write`.
    pub fn rnic_c_message_send(
        message: *mut RnicMessage,
        limit: u64,
        opcode: u64,
        msn: u64,
        stag: u64,
        length: u64,
    ) -> u32;

    /// Writes the next segment of a message, lent all of its bytes, to the start of `out`.
    ///
    /// # Safety
    /// `message` and `answer` point at values that nothing else uses meanwhile, `bytes` at `bytes_len` bytes and `out`
    /// at `out_len`, none of which overlap; a length of 0 needs a pointer that is not null.
    pub fn rnic_c_message_next(
        message: *mut RnicMessage,
        bytes: *const u8,
        bytes_len: usize,
        out: *mut u8,
        out_len: usize,
        answer: *mut Written,
    );

    /// Writes the FPDU of a ULPDU to the start of `out`.
    ///
    /// # Safety
    /// As for `rnic_c_message_next`.
    pub fn rnic_c_fpdu_write(
        ulpdu: *const u8,
        ulpdu_len: usize,
        out: *mut u8,
        out_len: usize,
        answer: *mut Written,
    );

    /// Reads the first FPDU of some bytes, with the CRC off where `crc` is 0, else on.
    ///
    /// # Safety
    /// As for `rnic_c_startup_read`.
    pub fn rnic_c_fpdu_read(crc: u64, bytes: *const u8, bytes_len: usize, answer: *mut FpduWords);

    /// Reads the startup frame at the start of some bytes: a request where `reply` is 0, else a reply.
    ///
    /// # Safety
    /// `bytes` points at `bytes_len` bytes, and `found` at a value that nothing else uses meanwhile; they do not overlap, and a
    /// length of 0 needs a pointer that is not null.
    pub fn rnic_c_startup_read(
        reply: u64,
        bytes: *const u8,
        bytes_len: usize,
        found: *mut RnicStartup,
    );

    /// Writes a startup frame with its private data to the start of `out`: a request where `reply` is 0, else a reply.
    ///
    /// # Safety
    /// `frame` points at a value, `private_data` at `private_data_len` bytes, `out` at `out_len` and `answer` at a value; the
    /// last two overlap nothing and nothing else uses them meanwhile. A length of 0 needs a pointer that is not null.
    pub fn rnic_c_startup_write(
        reply: u64,
        frame: *const RnicStartup,
        private_data: *const u8,
        private_data_len: usize,
        out: *mut u8,
        out_len: usize,
        answer: *mut Written,
    );

    /// Answers a request's terms with a responder's own: 0, or a refusal's number.
    ///
    /// # Safety
    /// All four point at values; `reply` and `kept` overlap nothing, and nothing else uses them meanwhile.
    pub fn rnic_c_agree_answer(
        own: *const RnicTerms,
        request: *const RnicTerms,
        reply: *mut RnicTerms,
        kept: *mut RnicTerms,
    ) -> u32;

    /// Settles an initiator's own terms by a reply's: 0, or a refusal's number.
    ///
    /// # Safety
    /// All three point at values; `kept` overlaps nothing, and nothing else uses it meanwhile.
    pub fn rnic_c_agree_settle(
        own: *const RnicTerms,
        reply: *const RnicTerms,
        kept: *mut RnicTerms,
    ) -> u32;
}
