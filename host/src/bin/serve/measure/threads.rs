//! The drivers that were measured and not chosen: a thread a connection, and the device behind one lock, which is had by who comes
//! by, or in turn.

use std::io::{Read, Write};
use std::net::TcpStream;
use std::sync::{Mutex, PoisonError};

use super::turns::Turns;
use crate::engine::{Engine, Next, Peer};
use crate::log::Log;

/// What a thread works on.
type Work = Box<(Engine, Log)>;

/// The engine that all threads have in common.
pub enum Shared {
    ComeBy(Mutex<Work>),
    InTurn(Turns<Work>),
}

impl Shared {
    /// Puts an engine behind a lock.
    pub fn new(engine: Engine, in_turn: bool) -> Self {
        let work = Box::new((engine, Log::nowhere()));
        match in_turn {
            false => Shared::ComeBy(Mutex::new(work)),
            true => Shared::InTurn(Turns::new(work)),
        }
    }

    /// Waits for the lock, and works.
    fn with<R>(&self, work: impl FnOnce(&mut Engine, &mut Log) -> R) -> R {
        let work = |held: &mut Work| {
            let (engine, log) = &mut **held;
            work(engine, log)
        };
        match self {
            Shared::ComeBy(lock) => work(&mut lock.lock().unwrap_or_else(PoisonError::into_inner)),
            Shared::InTurn(lock) => lock.with(work),
        }
    }

    /// Serves one connection: the lock is held while bytes are worked on, and not while they are waited for.
    pub fn serve(&self, mut socket: TcpStream, domain: usize) {
        let mut buffer = vec![0; 256 * 1024];
        let mut peer = Peer::new(0, domain);
        let mut out = Vec::new();
        let _ = socket.set_nodelay(true);
        while let Ok(count @ 1..) = socket.read(&mut buffer) {
            let bytes = &buffer[..count];
            let next = self.with(|engine, log| engine.feed(&mut peer, bytes, &mut out, log));
            if socket.write_all(&out).is_err() || next != Next::Go {
                break;
            }
            out.clear();
        }
        self.with(|engine, log| engine.close(&mut peer, "by the peer", log));
    }
}
