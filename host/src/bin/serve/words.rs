//! The words on the command line.

use std::env;

use crate::config::number;
use crate::Failure;

/// Words that are read one after the other.
pub struct Words {
    words: std::vec::IntoIter<String>,
}

impl Words {
    /// Gives the program's.
    pub fn of_program() -> Self {
        let words = env::args_os().skip(1);
        let words: Vec<String> = words
            .map(|word| word.to_string_lossy().into_owned())
            .collect();
        Words {
            words: words.into_iter(),
        }
    }

    /// Gives the first word that is left, which stays.
    pub fn first(&self) -> Option<&str> {
        self.words.as_slice().first().map(String::as_str)
    }

    /// Gives the next word.
    pub fn next(&mut self) -> Option<String> {
        self.words.next()
    }

    /// Gives the words behind the first.
    pub fn skip(mut self) -> Result<Self, Failure> {
        self.words.next();
        Ok(self)
    }

    /// Gives the value of an option, the next word.
    pub fn value(&mut self, option: &str) -> Result<String, Failure> {
        self.next()
            .ok_or_else(|| Failure::Usage(format!("{option} takes a value")))
    }

    /// Gives the value of an option that is a number.
    pub fn number(&mut self, option: &str) -> Result<u64, Failure> {
        let value = self.value(option)?;
        number(&value).map_err(|words| Failure::Usage(format!("{option}: {words}")))
    }
}

/// Says that there is no such option.
pub fn unknown(word: &str) -> Failure {
    Failure::Usage(format!("there is no option {word}"))
}
