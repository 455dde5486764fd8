//! The three functions of Linux's C library that the standard library does not offer: waiting for several sockets, being told
//! of a signal, and closing a socket at once.

use std::ffi::{c_int, c_short, c_ulong, c_void};
use std::io;
use std::net::TcpStream;
use std::os::fd::{AsRawFd, BorrowedFd};
use std::sync::atomic::{AtomicBool, Ordering};
use std::time::Duration;

/// There is something to read, or the other side has closed.
pub const READABLE: c_short = 1;
/// There is room to write.
pub const WRITABLE: c_short = 4;

const SIGINT: c_int = 2;
const SIGTERM: c_int = 15;
const SOL_SOCKET: c_int = 1;
const SO_LINGER: c_int = 13;

/// One file to wait for, `struct pollfd`.
#[repr(C)]
pub struct Waited {
    file: c_int,
    wanted: c_short,
    found: c_short,
}

impl Waited {
    /// Waits for these events of a file.
    pub fn new(file: BorrowedFd<'_>, wanted: c_short) -> Self {
        Waited {
            file: file.as_raw_fd(),
            wanted,
            found: 0,
        }
    }

    /// Says whether a file has something to say that is not `WRITABLE` alone: bytes, an end or an error.
    pub fn is_readable(&self) -> bool {
        self.found & !WRITABLE != 0
    }
}

/// `struct linger`: whether closing lingers, and for how many seconds.
#[repr(C)]
struct Linger {
    on: c_int,
    seconds: c_int,
}

extern "C" {
    fn poll(files: *mut Waited, count: c_ulong, milliseconds: c_int) -> c_int;
    fn signal(number: c_int, handler: extern "C" fn(c_int)) -> usize;
    fn setsockopt(
        socket: c_int,
        level: c_int,
        name: c_int,
        value: *const c_void,
        length: u32,
    ) -> c_int;
}

/// Waits until one of the files has an event, a signal comes, or the time has passed.
pub fn wait(files: &mut [Waited], most: Duration) -> io::Result<()> {
    let milliseconds = c_int::try_from(most.as_millis()).unwrap_or(c_int::MAX);
    // SAFETY: the pointer and the count are those of a slice that is borrowed for writing during the call.
    let found = unsafe { poll(files.as_mut_ptr(), files.len() as c_ulong, milliseconds) };
    match found {
        -1 => match io::Error::last_os_error() {
            error if error.kind() == io::ErrorKind::Interrupted => Ok(()),
            error => Err(error),
        },
        _ => Ok(()),
    }
}

/// Set once a signal has asked for the end.
static ASKED: AtomicBool = AtomicBool::new(false);

/// Notes that a signal came.
extern "C" fn note(_: c_int) {
    ASKED.store(true, Ordering::SeqCst);
}

/// Gives a mark that SIGINT and SIGTERM set from now on, in place of ending the program.
pub fn end_signals() -> &'static AtomicBool {
    // SAFETY: the handler does nothing but store to an atomic, which a handler may.
    unsafe {
        signal(SIGINT, note);
        signal(SIGTERM, note);
    }
    &ASKED
}

/// Makes the close of a socket a reset, so that the peer does not take it for a clean end.
pub fn reset_on_close(socket: &TcpStream) {
    let linger = Linger { on: 1, seconds: 0 };
    // SAFETY: the value and its length are those of one that is held for the call. Where the call fails, the close is a clean
    // one, and nothing else is different.
    unsafe {
        setsockopt(
            socket.as_raw_fd(),
            SOL_SOCKET,
            SO_LINGER,
            (&raw const linger).cast(),
            size_of::<Linger>() as u32,
        );
    }
}
