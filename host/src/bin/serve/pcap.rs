//! A capture of what was received and sent, as Wireshark and tshark read it: each connection as TCP over Ethernet, with sequence
//! numbers and checksums. What a socket brings has no packets any more, so the packets here are made: the bytes are the peer's,
//! and a packet ends where a frame or a read ends.

use std::fs::File;
use std::io::{self, BufWriter, Write};
use std::net::{IpAddr, SocketAddr};
use std::path::Path;
use std::time::{SystemTime, UNIX_EPOCH};

/// The most payload of one packet: with its headers it must fit the 16 bits of an IP length.
const MOST: usize = 32_768;

const FIN: u8 = 0x01;
const SYN: u8 = 0x02;
const RST: u8 = 0x04;
const PSH: u8 = 0x08;
const ACK: u8 = 0x10;

/// The protocol number of TCP.
const TCP: u8 = 6;

/// A capture file.
pub struct Capture {
    out: Option<BufWriter<File>>,
}

/// One connection in a capture: both ends, and the next sequence number of each.
pub struct Flow {
    peer: SocketAddr,
    own: SocketAddr,
    received: u32,
    sent: u32,
}

impl Capture {
    /// Starts a capture file.
    pub fn create(path: &Path) -> io::Result<Self> {
        let mut out = BufWriter::new(File::create(path)?);
        // The magic number of microseconds, version 2.4, no time zone, no accuracy, the longest packet, and Ethernet.
        for word in [0xA1B2_C3D4, 0x0004_0002, 0, 0, 0x0004_0000, 1_u32] {
            out.write_all(&word.to_le_bytes())?;
        }
        Ok(Capture { out: Some(out) })
    }

    /// Writes a new connection's three packets.
    pub fn open(&mut self, peer: SocketAddr, own: SocketAddr) -> Flow {
        let mut flow = Flow {
            peer,
            own,
            received: 0,
            sent: 0,
        };
        self.packet(&mut flow, true, SYN, &[]);
        self.packet(&mut flow, false, SYN | ACK, &[]);
        self.packet(&mut flow, true, ACK, &[]);
        flow
    }

    /// Writes bytes that the peer sent, in which frames end at some places, in order.
    pub fn received(&mut self, flow: &mut Flow, bytes: &[u8], ends: &[usize]) {
        let mut start = 0;
        for &end in ends.iter().chain([&bytes.len()]) {
            let frame = bytes.get(start..end).unwrap_or_default();
            for piece in frame.chunks(MOST) {
                self.packet(flow, true, PSH | ACK, piece);
            }
            start = end.max(start);
        }
    }

    /// Writes bytes that were sent to the peer.
    pub fn sent(&mut self, flow: &mut Flow, bytes: &[u8]) {
        for piece in bytes.chunks(MOST) {
            self.packet(flow, false, PSH | ACK, piece);
        }
    }

    /// Writes that the peer has sent its last byte.
    pub fn ended(&mut self, flow: &mut Flow) {
        self.packet(flow, true, FIN | ACK, &[]);
    }

    /// Writes that we closed the connection, cleanly or by a reset.
    pub fn close(&mut self, flow: &mut Flow, reset: bool) {
        let flags = if reset { RST | ACK } else { FIN | ACK };
        self.packet(flow, false, flags, &[]);
    }

    /// Writes out what was gathered. The first failure ends the capture, and is told.
    pub fn flush(&mut self) -> io::Result<()> {
        match &mut self.out {
            Some(out) => out.flush().inspect_err(|_| self.out = None),
            None => Ok(()),
        }
    }

    /// Writes one packet, from the peer or to it.
    fn packet(&mut self, flow: &mut Flow, from_peer: bool, flags: u8, payload: &[u8]) {
        let Some(out) = &mut self.out else {
            return;
        };
        let (from, to) = match from_peer {
            true => (flow.peer, flow.own),
            false => (flow.own, flow.peer),
        };
        let (sequence, acknowledged) = match from_peer {
            true => (&mut flow.received, flow.sent),
            false => (&mut flow.sent, flow.received),
        };
        let acknowledged = if flags & ACK != 0 { acknowledged } else { 0 };
        let segment = segment(from, to, *sequence, acknowledged, flags, payload);
        let counted = payload.len() as u32 + u32::from(flags & (SYN | FIN) != 0);
        *sequence = sequence.wrapping_add(counted);
        let frame = framed(from.ip(), to.ip(), from_peer, &segment);
        let now = SystemTime::now()
            .duration_since(UNIX_EPOCH)
            .unwrap_or_default();
        let length = frame.len() as u32;
        let header = [now.as_secs() as u32, now.subsec_micros(), length, length];
        let header = header.map(u32::to_le_bytes).concat();
        // A failed write shows at the flush, for which it is kept.
        let _ = out.write_all(&header).and_then(|()| out.write_all(&frame));
    }
}

/// Gives a TCP segment with its checksum.
fn segment(
    from: SocketAddr,
    to: SocketAddr,
    sequence: u32,
    acknowledged: u32,
    flags: u8,
    payload: &[u8],
) -> Vec<u8> {
    let mut bytes = Vec::with_capacity(20 + payload.len());
    bytes.extend(from.port().to_be_bytes());
    bytes.extend(to.port().to_be_bytes());
    bytes.extend(sequence.to_be_bytes());
    bytes.extend(acknowledged.to_be_bytes());
    // Five words of header, the flags, a window of all that fits, and no checksum and no urgent bytes yet.
    bytes.extend([0x50, flags, 0xFF, 0xFF, 0, 0, 0, 0]);
    bytes.extend(payload);
    let mut covered = addresses(from.ip(), to.ip());
    covered.extend([0, TCP]);
    covered.extend((bytes.len() as u16).to_be_bytes());
    covered.extend(&bytes);
    bytes[16..18].copy_from_slice(&checksum(&covered));
    bytes
}

/// Gives the Ethernet frame of a TCP segment.
fn framed(from: IpAddr, to: IpAddr, from_peer: bool, segment: &[u8]) -> Vec<u8> {
    let (peer, own) = ([2, 0, 0, 0, 0, 1], [2, 0, 0, 0, 0, 2]);
    let mut frame = Vec::with_capacity(54 + segment.len());
    frame.extend(if from_peer { own } else { peer });
    frame.extend(if from_peer { peer } else { own });
    match from {
        IpAddr::V4(_) => {
            frame.extend([0x08, 0x00]);
            let mut header = vec![0x45, 0];
            header.extend((20 + segment.len() as u16).to_be_bytes());
            // Not to be cut into fragments, and so many hops as a new packet has.
            header.extend([0, 0, 0x40, 0, 64, TCP, 0, 0]);
            header.extend(addresses(from, to));
            let sum = checksum(&header);
            header[10..12].copy_from_slice(&sum);
            frame.extend(header);
        }
        IpAddr::V6(_) => {
            frame.extend([0x86, 0xDD, 0x60, 0, 0, 0]);
            frame.extend((segment.len() as u16).to_be_bytes());
            frame.extend([TCP, 64]);
            frame.extend(addresses(from, to));
        }
    }
    frame.extend(segment);
    frame
}

/// Gives both addresses' bytes.
fn addresses(from: IpAddr, to: IpAddr) -> Vec<u8> {
    let bytes = |address| match address {
        IpAddr::V4(address) => address.octets().to_vec(),
        IpAddr::V6(address) => address.octets().to_vec(),
    };
    [bytes(from), bytes(to)].concat()
}

/// Gives the Internet's checksum: the inverse of the sum of 16 bits each, with the carries added on.
fn checksum(bytes: &[u8]) -> [u8; 2] {
    let words = bytes.chunks(2).map(|pair| match *pair {
        [high, low] => u32::from(u16::from_be_bytes([high, low])),
        [high] => u32::from(high) << 8,
        _ => 0,
    });
    let mut sum: u32 = words.sum();
    while sum > 0xFFFF {
        sum = (sum >> 16) + (sum & 0xFFFF);
    }
    (!sum as u16).to_be_bytes()
}
