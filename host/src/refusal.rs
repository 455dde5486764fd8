//! What a refusal says. This file is written by `docs/refusals` from `docs/refusals.tsv`.

use std::fmt;

/// A refusal by its name; its value is its number. The local ones refuse a call, and nothing changes; the others refuse the
/// peer's bytes, and the stream ends.
#[derive(Clone, Copy, Debug, PartialEq, Eq, Hash, PartialOrd, Ord)]
#[non_exhaustive]
#[repr(u8)]
pub enum Refusal {
    /// 1: a number, key, right or length is out of its range.
    ///
    /// Check the call's numbers: streams 0 to 15, windows 0 to 63, domains 0 to 3, keys 1 to 255, rights 1 to 3.
    OutOfRange = 1,
    /// 2: the store or the rooms that were lent have a wrong length.
    ///
    /// Lend the whole store, as long as the device was opened over, and all of the rooms.
    OtherLength = 2,
    /// 3: the stream is not open.
    ///
    /// Open the stream first.
    NotOpen = 3,
    /// 4: the stream is open already.
    ///
    /// Close the stream first; one that has ended counts as open until it is closed.
    AlreadyOpen = 4,
    /// 5: the stream has ended.
    ///
    /// Close the stream, and the connection with it; open it again for the next connection.
    StreamEnded = 5,
    /// 6: the window is live already.
    ///
    /// Drop the window first, or register another one; the lowest free slot of a domain can be asked for.
    WindowLive = 6,
    /// 7: the window is not live.
    ///
    /// There is nothing to drop: it was not registered, or was dropped, or a Send of the peer's invalidated it.
    WindowNotLive = 7,
    /// 8: the key is the last one that this window had.
    ///
    /// Choose another key, so that an STag from before does not reach the new window.
    KeyAgain = 8,
    /// 9: a part, a place, a length or a base breaks a rule.
    ///
    /// Parts stand in order inside the store; a window or buffer has at least one byte, inside its domain's part; a window's base + length is at most 2^64 - 1.
    BadPlace = 9,
    /// 10: eight buffers wait on the stream already.
    ///
    /// Post the next buffer when a Send has filled one.
    BuffersFull = 10,
    /// 11: no Read Request waits on the stream.
    ///
    /// Nothing is wrong: take again after more was received.
    NoReadWaits = 11,
    /// 12: a ULPDU or private data is over its limit.
    ///
    /// A ULPDU has at most 8,192 bytes, private data at most 512, with the terms of a startup frame counted.
    OverLimit = 12,
    /// 13: the output is too short for what is to be written.
    ///
    /// Lend a longer output and call again: an FPDU has at most 8,200 bytes, a startup frame 532.
    NoRoom = 13,
    /// 14: the bytes are not the startup frame that is expected.
    ///
    /// Close the connection: the key, the revision or the length is wrong, so the peer speaks another protocol or took the other side.
    BadStartup = 14,
    /// 15: the peer asks for markers, which this receiver does not have.
    ///
    /// Close the connection, or have the peer set up without markers.
    Markers = 15,
    /// 16: the stream holds bytes of an offer, so receive cannot be used.
    ///
    /// Offer what comes next until the stream holds nothing, or use offers alone.
    HoldsBytes = 16,
    /// 19: a byte is also a write window's or a waiting buffer's.
    ///
    /// Choose other bytes of the domain's part, drop that window, or wait until that buffer is filled.
    SharedByte = 19,
    /// 20: the FPDU says a length over 8,192 bytes.
    ///
    /// Close the connection: the peer's limit is larger than this receiver's, or what came is no FPDU.
    UlpduTooLong = 20,
    /// 21: the FPDU's CRC is wrong.
    ///
    /// Close the connection: bytes were damaged, or the peer writes no CRC and the stream was opened with it on.
    CrcError = 21,
    /// 22: the segment is shorter than its header.
    ///
    /// Close the connection: a tagged segment has at least 14 bytes, an untagged one 18.
    SegmentTooShort = 22,
    /// 23: the segment's DDP version is not 1.
    ///
    /// Close the connection: the peer speaks another version.
    DdpVersion = 23,
    /// 24: the Write's STag is that of another domain's window.
    ///
    /// Close the connection. Give a peer only STags of the domain that its stream belongs to.
    StagNotAssociated = 24,
    /// 25: the Write's STag names no live window, or has another key.
    ///
    /// Close the connection. Register the window before the peer is told its STag, and drop it after the peer's last Write.
    InvalidStag = 25,
    /// 26: the Write ends past 2^64.
    ///
    /// Close the connection: the peer's tagged offset is wrong.
    ToWrap = 26,
    /// 27: the Write does not lie inside the window.
    ///
    /// Close the connection. Check the base and the length that the peer was told.
    BoundsViolation = 27,
    /// 28: the segment's queue number is over 2.
    ///
    /// Close the connection: 0 is for Sends, 1 for Read Requests, 2 for a Terminate.
    InvalidQn = 28,
    /// 29: the message number is not the next one of its queue.
    ///
    /// Close the connection: a message was lost or came twice. Each queue counts from 1.
    InvalidMsn = 29,
    /// 30: no buffer waits for the Send, or eight Read Requests wait already.
    ///
    /// Close the connection. Post buffers before the peer sends, and take Read Requests as they come.
    NoBuffer = 30,
    /// 31: the message offset is not where the message goes on.
    ///
    /// Close the connection: a segment was lost, or came twice or out of order.
    InvalidMo = 31,
    /// 32: the message is longer than the buffer that waits for it.
    ///
    /// Close the connection. Post buffers as long as the longest Send; a Read Request has 28 bytes, a Terminate at most 52.
    MessageTooLong = 32,
    /// 33: the segment's RDMAP version is not 1.
    ///
    /// Close the connection: the peer speaks another version.
    RdmapVersion = 33,
    /// 34: the opcode does not fit the segment or the message's earlier ones.
    ///
    /// Close the connection: the opcode is of another queue, not supported, or changed inside a message.
    UnexpectedOpcode = 34,
    /// 35: the Write's window has no write right.
    ///
    /// Close the connection. Register windows that peers write to with the write right.
    NoWriteRight = 35,
    /// 36: the STag that the Send is to invalidate is not a live one of its domain.
    ///
    /// Close the connection: the peer invalidates what it was not given, or what is dropped already.
    InvalidateStag = 36,
    /// 37: the Read Request or the Terminate has a wrong length or no end.
    ///
    /// Close the connection: a Read Request has 28 bytes, a Terminate at least 4, each in one segment.
    Malformed = 37,
    /// 38: the Read Request asks for bytes that the peer may not read.
    ///
    /// Close the connection. Check the STag, the base, the length and the rights of the window that the peer was told.
    ReadSource = 38,
    /// 40: our IRD is under the peer's ORD.
    ///
    /// Decline the connection, or offer to take as many reads at a time as the peer makes.
    IrdTooSmall = 40,
    /// 41: there is no kind of first message that both sides can do.
    ///
    /// Decline the connection, or allow another kind: Send, Write or Read.
    NoKind = 41,
}

impl Refusal {
    /// All of them, in the order of their numbers.
    pub const ALL: [Refusal; 38] = [
        Refusal::OutOfRange,
        Refusal::OtherLength,
        Refusal::NotOpen,
        Refusal::AlreadyOpen,
        Refusal::StreamEnded,
        Refusal::WindowLive,
        Refusal::WindowNotLive,
        Refusal::KeyAgain,
        Refusal::BadPlace,
        Refusal::BuffersFull,
        Refusal::NoReadWaits,
        Refusal::OverLimit,
        Refusal::NoRoom,
        Refusal::BadStartup,
        Refusal::Markers,
        Refusal::HoldsBytes,
        Refusal::SharedByte,
        Refusal::UlpduTooLong,
        Refusal::CrcError,
        Refusal::SegmentTooShort,
        Refusal::DdpVersion,
        Refusal::StagNotAssociated,
        Refusal::InvalidStag,
        Refusal::ToWrap,
        Refusal::BoundsViolation,
        Refusal::InvalidQn,
        Refusal::InvalidMsn,
        Refusal::NoBuffer,
        Refusal::InvalidMo,
        Refusal::MessageTooLong,
        Refusal::RdmapVersion,
        Refusal::UnexpectedOpcode,
        Refusal::NoWriteRight,
        Refusal::InvalidateStag,
        Refusal::Malformed,
        Refusal::ReadSource,
        Refusal::IrdTooSmall,
        Refusal::NoKind,
    ];

    /// Gives the refusal of a number, or nothing where there is none.
    pub fn from_number(number: u8) -> Option<Self> {
        let mut all = Refusal::ALL.into_iter();
        all.find(|refusal| refusal.number() == number)
    }

    /// Gives its number.
    pub const fn number(self) -> u8 {
        self as u8
    }

    /// Says whether it refuses the caller's own call, and not the peer's bytes.
    pub const fn is_local(self) -> bool {
        !matches!(self.number(), 20..=38)
    }

    /// Gives what it says, in one line without the number.
    pub const fn text(self) -> &'static str {
        match self {
            Refusal::OutOfRange => "a number, key, right or length is out of its range",
            Refusal::OtherLength => "the store or the rooms that were lent have a wrong length",
            Refusal::NotOpen => "the stream is not open",
            Refusal::AlreadyOpen => "the stream is open already",
            Refusal::StreamEnded => "the stream has ended",
            Refusal::WindowLive => "the window is live already",
            Refusal::WindowNotLive => "the window is not live",
            Refusal::KeyAgain => "the key is the last one that this window had",
            Refusal::BadPlace => "a part, a place, a length or a base breaks a rule",
            Refusal::BuffersFull => "eight buffers wait on the stream already",
            Refusal::NoReadWaits => "no Read Request waits on the stream",
            Refusal::OverLimit => "a ULPDU or private data is over its limit",
            Refusal::NoRoom => "the output is too short for what is to be written",
            Refusal::BadStartup => "the bytes are not the startup frame that is expected",
            Refusal::Markers => "the peer asks for markers, which this receiver does not have",
            Refusal::HoldsBytes => "the stream holds bytes of an offer, so receive cannot be used",
            Refusal::SharedByte => "a byte is also a write window's or a waiting buffer's",
            Refusal::UlpduTooLong => "the FPDU says a length over 8,192 bytes",
            Refusal::CrcError => "the FPDU's CRC is wrong",
            Refusal::SegmentTooShort => "the segment is shorter than its header",
            Refusal::DdpVersion => "the segment's DDP version is not 1",
            Refusal::StagNotAssociated => "the Write's STag is that of another domain's window",
            Refusal::InvalidStag => "the Write's STag names no live window, or has another key",
            Refusal::ToWrap => "the Write ends past 2^64",
            Refusal::BoundsViolation => "the Write does not lie inside the window",
            Refusal::InvalidQn => "the segment's queue number is over 2",
            Refusal::InvalidMsn => "the message number is not the next one of its queue",
            Refusal::NoBuffer => {
                "no buffer waits for the Send, or eight Read Requests wait already"
            }
            Refusal::InvalidMo => "the message offset is not where the message goes on",
            Refusal::MessageTooLong => "the message is longer than the buffer that waits for it",
            Refusal::RdmapVersion => "the segment's RDMAP version is not 1",
            Refusal::UnexpectedOpcode => {
                "the opcode does not fit the segment or the message's earlier ones"
            }
            Refusal::NoWriteRight => "the Write's window has no write right",
            Refusal::InvalidateStag => {
                "the STag that the Send is to invalidate is not a live one of its domain"
            }
            Refusal::Malformed => "the Read Request or the Terminate has a wrong length or no end",
            Refusal::ReadSource => "the Read Request asks for bytes that the peer may not read",
            Refusal::IrdTooSmall => "our IRD is under the peer's ORD",
            Refusal::NoKind => "there is no kind of first message that both sides can do",
        }
    }
}

impl fmt::Display for Refusal {
    /// Writes the number and what it says: `27: the Write does not lie inside the window`.
    fn fmt(&self, out: &mut fmt::Formatter<'_>) -> fmt::Result {
        write!(out, "{}: {}", self.number(), self.text())
    }
}
