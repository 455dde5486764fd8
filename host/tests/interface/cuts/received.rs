//! A night whose bytes are received, by a caller that keeps what is not all of an FPDU.

use oracle::hex;
use oracle::state::{stream_domain, STREAMS};

use super::maker::Step;
use super::run::Run;
use super::STORE;
use crate::support::numbered::Numbered;
use crate::support::Program;

/// A night of receives, uncut: the caller keeps what is not all of an FPDU.
pub struct Received {
    program: Program<Numbered>,
    kept: [Vec<u8>; STREAMS],
    events: [Vec<String>; 4],
}

impl Received {
    /// Starts with nothing opened.
    pub fn new() -> Self {
        Received {
            program: Program::new(Numbered::new(), STORE),
            kept: std::array::from_fn(|_| Vec::new()),
            events: Default::default(),
        }
    }

    /// Takes a step.
    pub fn step(&mut self, step: &Step) {
        match step {
            Step::Host(line) => {
                if let Some(stream) = line.strip_prefix("close ") {
                    self.kept[stream.parse::<usize>().unwrap()].clear();
                }
                self.program.run_line(line.as_bytes());
            }
            Step::Came(came) => came
                .iter()
                .for_each(|(stream, bytes)| self.receive(*stream, bytes)),
        }
    }

    /// Receives the FPDUs that are there.
    fn receive(&mut self, stream: usize, bytes: &[u8]) {
        let kept = &mut self.kept[stream];
        kept.extend(bytes);
        loop {
            let line = format!("receive {stream} {}", hex::encode(kept));
            let answer = self.program.run_line(line.as_bytes()).unwrap();
            let words: Vec<&str> = answer.split(' ').collect();
            match words[..] {
                ["taken", total, ..] => drop(kept.drain(..total.parse::<usize>().unwrap())),
                ["wait", _] => return,
                _ => kept.clear(),
            }
            if let ["refused", "5" | "3"] = words[..] {
                return;
            }
            self.events[stream_domain(stream)].push(format!("{stream} {answer}"));
        }
    }

    /// Says whether a run of offers came to the same: the events, the store and, where it holds nothing, the words.
    pub fn is_as(&self, run: &Run) -> bool {
        let holds = run
            .second
            .device
            .streams
            .iter()
            .any(|stream| !stream.held.is_empty());
        let kept = (0..).zip(&self.kept);
        let same =
            |(stream, kept): (usize, &Vec<u8>)| *kept == run.second.device.streams[stream].held;
        self.events == run.events
            && self.program.store == run.second.store
            && kept.into_iter().all(same)
            && (holds || self.program.device.device() == run.ours[0].device.device())
    }
}
