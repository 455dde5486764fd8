//! A count of how often each kind of answer was given.

use std::collections::{BTreeMap, BTreeSet};
use std::fmt;

use crate::refusal::{FAULTS, REFUSALS};

/// The words that tell answers of one first word apart.
const NAMED: [&str; 8] = [
    "taken",
    "send",
    "stag",
    "terminate",
    "closed",
    "open",
    "ended",
    "terminated",
];

/// Counts by command word and kind of answer.
#[derive(Clone, Debug, Default)]
pub struct Tally {
    counts: BTreeMap<(String, String), u64>,
}

impl Tally {
    /// Counts one line and its answer.
    pub fn add(&mut self, line: &[u8], answer: &str) {
        let kind = answer_kind(answer);
        let command = if kind == "bad" {
            String::from("-")
        } else {
            command_word(line)
        };
        *self.counts.entry((command, kind)).or_default() += 1;
    }

    /// Gives how often a command had an answer of this kind.
    pub fn count(&self, command: &str, kind: &str) -> u64 {
        let key = (String::from(command), String::from(kind));
        self.counts.get(&key).copied().unwrap_or(0)
    }

    /// Gives how often an answer of this kind was given, whatever the command.
    pub fn count_all(&self, kind: &str) -> u64 {
        let same = self.counts.iter().filter(|((_, k), _)| k == kind);
        same.map(|(_, count)| count).sum()
    }

    /// Gives the kinds of answers that were given and do not refuse.
    pub fn taken_kinds(&self) -> BTreeSet<&str> {
        let kinds = self.counts.keys().map(|(_, kind)| kind.as_str());
        kinds.filter(|kind| !kind.starts_with("refused")).collect()
    }
}

impl fmt::Display for Tally {
    /// Writes one line for each kind.
    fn fmt(&self, out: &mut fmt::Formatter) -> fmt::Result {
        for ((command, kind), count) in &self.counts {
            writeln!(out, "{count:9}  {command}: {kind}")?;
        }
        Ok(())
    }
}

/// Gives the first word of a line.
fn command_word(line: &[u8]) -> String {
    let mut words = line.split(|&byte| byte == b' ');
    let word = words.find(|word| !word.is_empty()).unwrap_or(b"");
    String::from_utf8_lossy(word).into_owned()
}

/// Gives every answer that refuses, in the order of the numbers.
pub fn refusals() -> Vec<String> {
    let local = REFUSALS.iter().map(|refusal| format!("refused {refusal}"));
    let faults = FAULTS.iter().map(|fault| format!("refused {fault}"));
    local.chain(faults).collect()
}

/// Gives every answer that reads a gauge, without its values.
pub fn readings() -> [String; 3] {
    ["quiet", "steady", "falling"].map(String::from)
}

/// Gives every answer that tells a stream's state, without its values.
pub fn states() -> [String; 4] {
    ["closed", "open", "ended", "terminated"].map(|state| format!("state {state}"))
}

/// Gives the words of an answer that are not values: a refusal is kept whole.
fn answer_kind(answer: &str) -> String {
    if answer.starts_with("refused") {
        return String::from(answer);
    }
    let mut kind = String::new();
    for word in answer.split(' ').take(9) {
        let named = NAMED.contains(&word);
        if kind.is_empty() {
            kind.push_str(word);
        } else if named {
            kind.push(' ');
            kind.push_str(word);
        }
    }
    kind
}
