//! A server in a process of its own, and what a peer sends to it, written by the second program.

use std::fs;
use std::io::{BufRead, BufReader, Read, Write};
use std::net::{Shutdown, TcpStream};
use std::path::PathBuf;
use std::process::{Child, ChildStdin, Command, Output, Stdio};
use std::sync::atomic::{AtomicU64, Ordering};
use std::sync::{Arc, Condvar, Mutex};
use std::thread;
use std::time::{Duration, Instant};

use oracle::mpa::write_fpdu;
use oracle::sender::Message;
use oracle::startup::{write_startup, Role};
use oracle::startup2::{write_startup2, Establishment};

/// How long something is waited for that must come.
pub const PATIENCE: Duration = Duration::from_secs(30);

/// The program.
pub const SERVE: &str = env!("CARGO_BIN_EXE_serve");

/// Gives a new folder for a test's files.
pub fn folder() -> PathBuf {
    static COUNT: AtomicU64 = AtomicU64::new(0);
    let name = format!(
        "serve-{}-{}",
        std::process::id(),
        COUNT.fetch_add(1, Ordering::SeqCst)
    );
    let folder = PathBuf::from(env!("CARGO_TARGET_TMPDIR")).join(name);
    fs::create_dir_all(&folder).unwrap();
    folder
}

/// Runs the program to its end.
pub fn run(words: &[&str]) -> Output {
    let mut command = Command::new(SERVE);
    command.args(words).stdin(Stdio::null()).output().unwrap()
}

/// The lines of a log, as they come.
type Lines = Arc<(Mutex<Vec<String>>, Condvar)>;

/// A server that runs.
pub struct Server {
    child: Child,
    input: Option<ChildStdin>,
    lines: Lines,
    ports: [u16; 4],
    pub folder: PathBuf,
}

impl Server {
    /// Starts one with a configuration, on free ports.
    pub fn start(config: &str) -> Self {
        Server::start_with(config, &[], folder())
    }

    /// Starts one with more words on its command line, and its files in a folder.
    pub fn start_with(config: &str, words: &[&str], folder: PathBuf) -> Self {
        let mut text = String::from(config);
        for domain in 0..4 {
            text += &format!("\nlisten {domain} 127.0.0.1:0");
        }
        let path = folder.join("serve.conf");
        fs::write(&path, text).unwrap();
        let mut child = Command::new(SERVE)
            .arg(&path)
            .arg("--save")
            .arg(folder.join("store"))
            .args(words)
            .current_dir(&folder)
            .stdin(Stdio::piped())
            .stdout(Stdio::piped())
            .spawn()
            .unwrap();
        let (input, output) = (child.stdin.take(), child.stdout.take().unwrap());
        let lines = Lines::default();
        let kept = Arc::clone(&lines);
        thread::spawn(move || {
            for line in BufReader::new(output).lines().map_while(Result::ok) {
                kept.0.lock().unwrap().push(line);
                kept.1.notify_all();
            }
        });
        let mut server = Server {
            child,
            input,
            lines,
            ports: [0; 4],
            folder,
        };
        for domain in 0..4 {
            let line = server.wait_for(&format!("domain {domain} listens on "));
            server.ports[domain] = line.rsplit(':').next().unwrap().parse().unwrap();
        }
        server
    }

    /// Gives the log so far.
    pub fn log(&self) -> Vec<String> {
        self.lines.0.lock().unwrap().clone()
    }

    /// Waits for a line of log that has these words in it, and gives it.
    pub fn wait_for(&self, words: &str) -> String {
        self.wait_for_number(words, 1)
    }

    /// Waits until so many lines of log have these words in them, and gives the last.
    pub fn wait_for_number(&self, words: &str, number: usize) -> String {
        let end = Instant::now() + PATIENCE;
        let mut lines = self.lines.0.lock().unwrap();
        loop {
            let mut found = lines.iter().filter(|line| line.contains(words));
            if let Some(line) = found.nth(number - 1) {
                return line.clone();
            }
            let left = end.saturating_duration_since(Instant::now());
            assert!(
                !left.is_zero(),
                "no line with `{words}` in {PATIENCE:?}: {:#?}",
                &lines[lines.len().saturating_sub(40)..]
            );
            lines = self.lines.1.wait_timeout(lines, left).unwrap().0;
        }
    }

    /// Gives where a domain is listened for.
    pub fn address(&self, domain: usize) -> String {
        format!("127.0.0.1:{}", self.ports[domain])
    }

    /// Connects to a domain.
    pub fn connect(&self, domain: usize) -> TcpStream {
        let socket = TcpStream::connect(self.address(domain)).unwrap();
        socket.set_nodelay(true).unwrap();
        socket.set_read_timeout(Some(PATIENCE)).unwrap();
        socket
    }

    /// Types a line.
    pub fn say(&mut self, line: &str) {
        let input = self.input.as_mut().unwrap();
        writeln!(input, "{line}").unwrap();
    }

    /// Closes standard input.
    pub fn close_input(&mut self) {
        self.input = None;
    }

    /// Sends a signal by its name.
    pub fn signal(&self, name: &str) {
        let number = self.child.id().to_string();
        let done = Command::new("kill").args(["-s", name, &number]).status();
        assert!(done.unwrap().success());
    }

    /// Gives a number of kilobytes that Linux tells of the process.
    pub fn kilobytes(&self, name: &str) -> u64 {
        let path = format!("/proc/{}/status", self.child.id());
        let status = fs::read_to_string(path).unwrap();
        let line = status.lines().find(|line| line.starts_with(name)).unwrap();
        line.split_whitespace().nth(1).unwrap().parse().unwrap()
    }

    /// Types `quit` and gives the store that is saved.
    pub fn quit(mut self) -> Vec<u8> {
        self.say("quit");
        self.ended()
    }

    /// Waits for the end, which must be a clean one, and gives the store that is saved.
    pub fn ended(mut self) -> Vec<u8> {
        let end = Instant::now() + PATIENCE;
        let status = loop {
            if let Some(status) = self.child.try_wait().unwrap() {
                break status;
            }
            assert!(Instant::now() < end, "it does not end: {:#?}", self.log());
            thread::sleep(Duration::from_millis(5));
        };
        assert!(status.success(), "{status}: {:#?}", self.log());
        self.wait_for("the end");
        fs::read(self.folder.join("store")).unwrap()
    }
}

impl Drop for Server {
    /// Ends a server that a failed test leaves.
    fn drop(&mut self) {
        let _ = self.child.kill();
        let _ = self.child.wait();
        let _ = fs::remove_dir_all(&self.folder);
    }
}

/// Gives a startup request of revision 1.
pub fn request1(crc: bool, data: &[u8]) -> Vec<u8> {
    let mut out = [0; 532];
    let length = write_startup(Role::Request, crc, false, data, &mut out).unwrap();
    out[..length].to_vec()
}

/// Gives a startup request of revision 2, with terms where there are some.
pub fn request2(crc: bool, terms: Option<Establishment>, data: &[u8]) -> Vec<u8> {
    let mut out = [0; 532];
    let length = write_startup2(Role::Request, crc, false, terms, data, &mut out).unwrap();
    out[..length].to_vec()
}

/// Gives a reply, of revision 1 or 2.
pub fn reply(
    revision: u8,
    crc: bool,
    declined: bool,
    terms: Option<Establishment>,
    data: &[u8],
) -> Vec<u8> {
    let mut out = [0; 532];
    let length = match revision {
        1 => write_startup(Role::Reply, crc, declined, data, &mut out),
        _ => write_startup2(Role::Reply, crc, declined, terms, data, &mut out),
    };
    out[..length.unwrap()].to_vec()
}

/// Names four values.
pub fn terms(peer_to_peer: bool, ird: u64, ord: u64, kinds: u64) -> Establishment {
    Establishment {
        peer_to_peer,
        ird,
        ord,
        kinds,
    }
}

/// Gives the FPDU of a ULPDU.
pub fn fpdu(ulpdu: &[u8]) -> Vec<u8> {
    let mut out = [0; 8200];
    let total = write_fpdu(ulpdu, &mut out).unwrap();
    out[..total].to_vec()
}

/// Gives the FPDUs of a message.
fn framed(message: Message) -> Vec<u8> {
    let segments = message.segments();
    segments.iter().flat_map(|segment| fpdu(segment)).collect()
}

/// Gives the FPDUs of a Write.
pub fn write(stag: u64, to: u64, bytes: &[u8]) -> Vec<u8> {
    framed(Message::write(1442, stag, to, bytes.to_vec()).unwrap())
}

/// Gives the FPDUs of a Send.
pub fn send(msn: u64, bytes: &[u8]) -> Vec<u8> {
    framed(Message::send(1442, 3, msn, 0, bytes.to_vec()).unwrap())
}

/// Gives the FPDU of a Read Request.
pub fn read_request(msn: u32, size: u32, source_stag: u32, source_to: u64) -> Vec<u8> {
    let mut ulpdu = vec![0x41, 0x41, 0, 0, 0, 0, 0, 0, 0, 1];
    ulpdu.extend(msn.to_be_bytes());
    ulpdu.extend([0; 4]);
    ulpdu.extend(7_u32.to_be_bytes());
    ulpdu.extend(9_u64.to_be_bytes());
    ulpdu.extend(size.to_be_bytes());
    ulpdu.extend(source_stag.to_be_bytes());
    ulpdu.extend(source_to.to_be_bytes());
    fpdu(&ulpdu)
}

/// Sends a request and reads so many bytes of the reply.
pub fn greet(mut socket: &TcpStream, request: &[u8], length: usize) -> Vec<u8> {
    socket.write_all(request).unwrap();
    let mut reply = vec![0; length];
    socket.read_exact(&mut reply).unwrap();
    reply
}

/// Opens a stream of a domain by a startup of revision 1 with the CRC off.
pub fn opened(server: &Server, domain: usize) -> TcpStream {
    let socket = server.connect(domain);
    let answer = greet(&socket, &request1(false, &[]), 20);
    assert_eq!(answer, reply(1, false, false, None, &[]));
    socket
}

/// Sends no more, and reads what comes until the other side closes.
pub fn finish(mut socket: TcpStream) -> std::io::Result<Vec<u8>> {
    socket.shutdown(Shutdown::Write)?;
    let mut rest = Vec::new();
    socket.read_to_end(&mut rest).map(|_| rest)
}

/// Waits until the other side has closed, by a reset or not.
pub fn closed(mut socket: &TcpStream) {
    let mut byte = [0];
    match socket.read(&mut byte) {
        Ok(0) => (),
        Err(error) if error.kind() == std::io::ErrorKind::ConnectionReset => (),
        other => panic!("not closed: {other:?}"),
    }
}
