//! A night whose bytes are offered, cut in some way.

use oracle::generate::prng::Prng;
use oracle::hex;
use oracle::script::Interpreter;
use oracle::state::{stream_domain, Condition, STREAMS};

use super::maker::Step;
use super::STORE;
use crate::support::numbered::Numbered;
use crate::support::{any_rooms, Program};

/// How the bytes of a step are cut.
#[derive(Clone, Copy, Debug, PartialEq, Eq)]
pub enum Cut {
    Whole,
    Bytes,
    Small,
    Fields,
    Anywhere,
}

impl Cut {
    /// Picks the length of the next piece, which may be nothing.
    pub fn piece(self, prng: &mut Prng, rest: usize) -> usize {
        match self {
            Cut::Whole => rest,
            Cut::Bytes => rest.min(1),
            Cut::Small => prng.index(rest.min(9) + 1),
            Cut::Fields => prng
                .pick(&[rest, rest.saturating_sub(4), 1, 2, 16, 20, 24, 52])
                .min(rest),
            Cut::Anywhere => prng.index(rest.min(700) + 1),
        }
    }
}

/// A night under way on the programs: ours, with rooms of zeros and of anything, and the second; with each domain's events.
pub struct Run {
    pub ours: [Program<Numbered>; 2],
    pub second: Interpreter,
    pub events: [Vec<String>; 4],
    ended: [bool; STREAMS],
    pub refused: u64,
}

impl Run {
    /// Starts with nothing opened.
    pub fn new(prng: &mut Prng) -> Self {
        let rooms = any_rooms(prng);
        Run {
            ours: [
                Program::new(Numbered::new(), STORE),
                Program::within(Numbered::new(), STORE, rooms),
            ],
            second: Interpreter::with_store(STORE),
            events: Default::default(),
            ended: [false; STREAMS],
            refused: 0,
        }
    }

    /// Runs a line on all of the programs, which must answer the same.
    fn line(&mut self, line: &str) -> String {
        let answers = self
            .ours
            .each_mut()
            .map(|ours| ours.run_line(line.as_bytes()));
        let answer = self.second.run_line(line.as_bytes());
        assert_eq!(answers, [answer.clone(), answer.clone()], "{line}");
        answer.unwrap_or_default()
    }

    /// Takes a step, its bytes cut in such a way, those of different domains in any order.
    pub fn step(&mut self, step: &Step, prng: &mut Prng, cut: Cut) {
        match step {
            Step::Host(line) => {
                let answer = self.line(line);
                let mut words = line.split(' ');
                if let (Some("stream"), Some(Ok(stream))) =
                    (words.next(), words.next().map(str::parse::<usize>))
                {
                    self.ended[stream] &= answer != "done";
                }
            }
            Step::Came(came) => {
                let mut left: Vec<(usize, &[u8])> = came
                    .iter()
                    .map(|(stream, bytes)| (*stream, &bytes[..]))
                    .collect();
                while !left.is_empty() {
                    let at = match cut {
                        Cut::Whole => 0,
                        _ => prng.index(left.len()),
                    };
                    let (stream, bytes) = left[at];
                    let (piece, behind) = bytes.split_at(cut.piece(prng, bytes.len()));
                    self.piece(stream, piece);
                    left[at].1 = behind;
                    left.retain(|(_, bytes)| !bytes.is_empty());
                }
            }
        }
    }

    /// Offers a piece, and what was not taken of it again, until none is left.
    fn piece(&mut self, stream: usize, mut piece: &[u8]) {
        loop {
            let answer = self.line(&format!("offer {stream} {}", hex::encode(piece)));
            let events = &mut self.events[stream_domain(stream)];
            let mut words = answer.splitn(3, ' ');
            match (words.next(), words.next(), words.next()) {
                (Some("took"), Some(took), event) => {
                    assert!(!self.ended[stream], "an offer to an ended stream is taken");
                    let took: usize = took.parse().unwrap();
                    assert!(event.is_some() || took == piece.len(), "{answer}");
                    piece = &piece[took..];
                    if let Some(event) = event {
                        self.ended[stream] = event.contains("terminate");
                        events.push(format!("{stream} {event}"));
                        assert_eq!(self.held(stream), 0);
                    }
                    if piece.is_empty() {
                        return;
                    }
                }
                (Some("refused"), Some("5" | "3"), None) => {
                    let closed = Condition::Closed;
                    let is_closed = self.second.device.streams[stream].condition == closed;
                    assert!(self.ended[stream] || is_closed);
                    self.refused += 1;
                    assert_eq!(self.held(stream), 0);
                    return;
                }
                (Some("refused"), Some(_), Some(_)) => {
                    assert!(!self.ended[stream]);
                    self.ended[stream] = true;
                    events.push(format!("{stream} {answer}"));
                    assert_eq!(self.held(stream), 0);
                    return;
                }
                _ => panic!("{answer}"),
            }
        }
    }

    /// Gives how many bytes a stream holds, in which the programs must agree.
    fn held(&mut self, stream: usize) -> usize {
        let answer = self.line(&format!("held {stream}"));
        answer.strip_prefix("held ").unwrap().parse().unwrap()
    }

    /// Says whether our programs and the second hold the same, in the store and of FPDUs that are not whole.
    pub fn agrees(&self) -> bool {
        let [zeros, garbage] = &self.ours;
        let device = &self.second.device;
        zeros.device.device() == garbage.device.device()
            && self.ours.iter().all(|ours| {
                let held = (0..).zip(&device.streams);
                ours.store == self.second.store
                    && ours.holds_as(device)
                    && held.into_iter().all(|(stream, record)| {
                        ours.device.held(stream) as usize == record.held.len()
                    })
            })
    }

    /// Says whether two runs are in the same state: events, words, store and bytes held.
    pub fn is_as(&self, other: &Run) -> bool {
        self.events == other.events
            && self.ours[0].device.device() == other.ours[0].device.device()
            && self.second.device == other.second.device
            && self.second.store == other.second.store
    }
}
