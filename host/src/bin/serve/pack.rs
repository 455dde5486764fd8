//! The other side: connects, does the startup, and sends a file as Writes or as Sends.

use std::fs;
use std::io::{self, Read, Write};
use std::net::{Shutdown, TcpStream};
use std::time::{Duration, Instant};

use rnic::{read_startup, settle, write_fpdu, write_startup};
use rnic::{Error, Form, Message, Role, Startup, StartupRead, Terms, KIND_SEND, KIND_WRITE};

use crate::config::number;
use crate::log::counted;
use crate::words::{unknown, Words};
use crate::Failure;

/// The longest ULPDU, FPDU and startup frame.
const ULPDU: u64 = 8192;
const FPDU: usize = 8200;
const STARTUP: usize = 532;
/// How many bytes are gathered before they are sent.
const GATHERED: usize = 256 * 1024;
/// How long a reply is waited for.
const PATIENCE: Duration = Duration::from_secs(30);
/// Opcode 3, a Send.
const SEND: u64 = 3;

/// How the file is sent.
enum Kind {
    Write { stag: u64 },
    Send,
}

/// What is asked for.
struct Packing {
    address: String,
    file: String,
    kind: Option<Kind>,
    to: u64,
    size: Option<u64>,
    limit: u64,
    repeat: u64,
    startup: Startup,
    peer: bool,
    ird: u64,
    ord: u64,
}

impl Packing {
    /// Reads the words.
    fn read(mut words: Words) -> Result<Self, Failure> {
        let mut named = Vec::new();
        let mut packing = Packing {
            address: String::new(),
            file: String::new(),
            kind: None,
            to: 0,
            size: None,
            limit: ULPDU,
            repeat: 1,
            startup: Startup {
                crc: false,
                declined: false,
                form: Form::Second,
            },
            peer: false,
            ird: 0,
            ord: 0,
        };
        while let Some(word) = words.next() {
            match word.as_str() {
                "--send" => packing.kind = Some(Kind::Send),
                "--write" => {
                    let stag = words.number(&word)?;
                    packing.kind = Some(Kind::Write { stag });
                }
                "--to" => packing.to = words.number(&word)?,
                "--size" => packing.size = Some(words.number(&word)?.max(1)),
                "--limit" => packing.limit = words.number(&word)?,
                "--repeat" => packing.repeat = words.number(&word)?,
                "--revision" => match number(&words.value(&word)?) {
                    Ok(1) => packing.startup.form = Form::First,
                    Ok(2) => packing.startup.form = Form::Second,
                    _ => return Err(Failure::Usage(String::from("--revision takes 1 or 2"))),
                },
                "--crc" => packing.startup.crc = true,
                "--peer" => packing.peer = true,
                "--ird" => packing.ird = words.number(&word)?,
                "--ord" => packing.ord = words.number(&word)?,
                _ if word.starts_with('-') => return Err(unknown(&word)),
                _ => named.push(word),
            }
        }
        match <[String; 2]>::try_from(named) {
            Ok([address, file]) => (packing.address, packing.file) = (address, file),
            Err(_) => return Err(usage("pack takes ADDRESS:PORT and FILE")),
        }
        if packing.startup.form == Form::Second {
            packing.startup.form = Form::Enhanced(packing.terms());
        } else if packing.peer {
            return Err(usage("--peer needs revision 2"));
        }
        Ok(packing)
    }

    /// Gives what this side says of itself. An empty read is not among the first messages: there is no writer for one yet.
    fn terms(&self) -> Terms {
        Terms {
            peer: self.peer,
            ird: self.ird,
            ord: self.ord,
            kinds: if self.peer { KIND_SEND | KIND_WRITE } else { 0 },
        }
    }
}

/// Says what is wrong with the words.
fn usage(words: &str) -> Failure {
    Failure::Usage(String::from(words))
}

/// Says which refusal of the library it was.
fn refused(error: Error) -> Failure {
    Failure::Failed(error.to_string())
}

/// Sends a file as the words say.
pub fn run(words: Words) -> Result<(), Failure> {
    let packing = Packing::read(words)?;
    let Some(kind) = &packing.kind else {
        return Err(usage("pack needs --send or --write STAG"));
    };
    let bytes = fs::read(&packing.file)
        .map_err(|error| Failure::Failed(format!("cannot read {}: {error}", packing.file)))?;
    let socket = TcpStream::connect(&packing.address);
    let socket =
        socket.map_err(|error| Failure::Failed(format!("{}: {error}", packing.address)))?;
    socket.set_nodelay(true)?;
    let first = start(&socket, &packing)?;
    let began = Instant::now();
    let mut sender = Sender {
        socket,
        limit: packing.limit,
        msn: 0,
        fpdus: 0,
        messages: 0,
        gathered: Vec::with_capacity(GATHERED + FPDU),
    };
    match first {
        KIND_SEND => sender.send(&[])?,
        KIND_WRITE => sender.write(0, 0, &[])?,
        _ => (),
    }
    for _ in 0..packing.repeat {
        sender.pack(kind, packing.to, packing.size, &bytes)?;
    }
    sender.finish()?;
    let seconds = began.elapsed().as_secs_f64();
    let total = bytes.len() as u64 * packing.repeat;
    let name = match kind {
        Kind::Write { .. } => "Write",
        Kind::Send => "Send",
    };
    println!(
        "sent {} as {} in {}, {seconds:.3} s: {:.1} MB a second",
        counted(total, "byte"),
        counted(sender.messages, name),
        counted(sender.fpdus, "FPDU"),
        total as f64 / seconds / 1e6
    );
    Ok(())
}

/// Does the startup and gives the kind of the first message, 0 where there is none.
fn start(mut socket: &TcpStream, packing: &Packing) -> Result<u64, Failure> {
    let mut frame = [0; STARTUP];
    let length = write_startup(Role::Request, packing.startup, &[], &mut frame).map_err(refused)?;
    socket.write_all(&frame[..length])?;
    socket.set_read_timeout(Some(PATIENCE))?;
    let (reply, data) = read_reply(socket)?;
    if reply.declined {
        let why = match data.is_empty() {
            true => String::new(),
            false => format!(": {}", String::from_utf8_lossy(&data).escape_debug()),
        };
        return Err(Failure::Failed(format!("the peer declines{why}")));
    }
    match (packing.startup.form, reply.form) {
        (Form::Enhanced(own), Form::Enhanced(terms)) => {
            let kept = settle(own, terms).map_err(refused)?;
            Ok(kept.kinds)
        }
        (Form::First, Form::First) => Ok(0),
        _ => Err(Failure::Failed(String::from(
            "the peer replies in another form than it was asked",
        ))),
    }
}

/// Reads a reply byte by byte as far as it goes, so that nothing behind it is lost.
fn read_reply(mut socket: &TcpStream) -> Result<(Startup, Vec<u8>), Failure> {
    let mut held = Vec::new();
    loop {
        let total = match read_startup(Role::Reply, &held).map_err(refused)? {
            StartupRead::Taken {
                frame,
                private_data,
                ..
            } => return Ok((frame, private_data.to_vec())),
            StartupRead::Wait(total) => total,
        };
        let before = held.len();
        held.resize(total, 0);
        socket.read_exact(&mut held[before..]).map_err(|error| {
            Failure::Failed(match error.kind() {
                io::ErrorKind::UnexpectedEof => String::from("the peer closes in the startup"),
                _ => format!("no reply: {error}"),
            })
        })?;
    }
}

/// What is sent on a connection.
struct Sender {
    socket: TcpStream,
    limit: u64,
    /// The last number of a Send.
    msn: u32,
    fpdus: u64,
    messages: u64,
    gathered: Vec<u8>,
}

impl Sender {
    /// Sends bytes in messages of one size.
    fn pack(
        &mut self,
        kind: &Kind,
        to: u64,
        size: Option<u64>,
        bytes: &[u8],
    ) -> Result<(), Failure> {
        let size = size.unwrap_or(match kind {
            Kind::Write { .. } => (bytes.len() as u64).max(1),
            Kind::Send => 4096,
        });
        let mut to = to;
        for message in bytes.chunks(usize::try_from(size).unwrap_or(usize::MAX)) {
            match kind {
                Kind::Write { stag } => self.write(*stag, to, message)?,
                Kind::Send => self.send(message)?,
            }
            to = to.wrapping_add(message.len() as u64);
        }
        Ok(())
    }

    /// Sends one Write.
    fn write(&mut self, stag: u64, to: u64, bytes: &[u8]) -> Result<(), Failure> {
        let message = Message::write(self.limit, stag, to, bytes.len() as u64);
        self.message(message.map_err(refused)?, bytes)
    }

    /// Sends one Send.
    fn send(&mut self, bytes: &[u8]) -> Result<(), Failure> {
        self.msn = self.msn.wrapping_add(1);
        let message = Message::send(self.limit, SEND, self.msn.into(), 0, bytes.len() as u64);
        self.message(message.map_err(refused)?, bytes)
    }

    /// Sends a message segment by segment.
    fn message(&mut self, mut message: Message, bytes: &[u8]) -> Result<(), Failure> {
        let mut segment = [0; ULPDU as usize];
        while let Some(length) = message.next(bytes, &mut segment).map_err(refused)? {
            let at = self.gathered.len();
            self.gathered.resize(at + FPDU, 0);
            let total =
                write_fpdu(&segment[..length], &mut self.gathered[at..]).map_err(refused)?;
            self.gathered.truncate(at + total);
            self.fpdus += 1;
            if self.gathered.len() >= GATHERED {
                self.flush()?;
            }
        }
        self.messages += 1;
        Ok(())
    }

    /// Sends what was gathered.
    fn flush(&mut self) -> Result<(), Failure> {
        self.socket.write_all(&self.gathered).map_err(ended)?;
        self.gathered.clear();
        Ok(())
    }

    /// Sends the rest and waits until the peer has closed, so that all of it has come.
    fn finish(&mut self) -> Result<(), Failure> {
        self.flush()?;
        self.socket.shutdown(Shutdown::Write).map_err(ended)?;
        io::copy(&mut self.socket, &mut io::sink()).map_err(ended)?;
        Ok(())
    }
}

/// Says that the peer has ended the connection.
fn ended(error: io::Error) -> Failure {
    Failure::Failed(match error.kind() {
        io::ErrorKind::ConnectionReset
        | io::ErrorKind::BrokenPipe
        | io::ErrorKind::NotConnected => {
            String::from("the peer has refused what was sent; its log says why")
        }
        _ => format!("the connection failed: {error}"),
    })
}
