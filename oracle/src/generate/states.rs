//! The question what a stream's state is, put between the calls of a night.

use super::malformed::malform;
use super::nights::Night;
use crate::state::{Condition, STREAMS};

impl Night {
    /// Asks now and then for a stream's state, most often where it is a rare one. What is drawn for that is apart, so that
    /// the other calls of a night are the same as without.
    pub(super) fn ask_state(&mut self, stream: usize) {
        std::mem::swap(&mut self.prng, &mut self.asking);
        let percent = match self.interpreter.device.streams[stream].condition {
            Condition::Open => 3,
            Condition::Closed => 6,
            Condition::Faulted(_) => 15,
            Condition::Terminated => 60,
        };
        if self.prng.percent(percent) {
            self.question(stream);
        }
        std::mem::swap(&mut self.prng, &mut self.asking);
    }

    /// Asks for a stream's state, at times twice and at times, where it plays every domain, in a line that is oddly written.
    fn question(&mut self, stream: usize) {
        self.numbered("state", stream, STREAMS);
        match self.prng.below(20) {
            0 | 1 => self.numbered("state", stream, STREAMS),
            2 if self.is_whole() => {
                let line = malform(&mut self.prng, format!("state {stream}").as_bytes());
                self.say(line);
            }
            _ => (),
        }
    }
}
