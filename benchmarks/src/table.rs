//! Tables in Markdown, written line by line to standard output.

use crate::measure::Times;

/// Writes the heading: the first columns hold words, the others numbers.
pub fn head(words: &[&str], numbers: &[&str]) {
    let names: Vec<&str> = words.iter().chain(numbers).copied().collect();
    let left = words.iter().map(|_| "---");
    let rules: Vec<&str> = left.chain(numbers.iter().map(|_| "---:")).collect();
    println!("\n| {} |\n|{}|", names.join(" | "), rules.join("|"));
}

/// Writes a row.
pub fn row(cells: &[String]) {
    println!("| {} |", cells.join(" | "));
}

/// Gives the cells of a row's name, both receivers' times and their ratio.
pub fn compared(name: String, ours: &Times, second: &Times) -> Vec<String> {
    let ratio = ratio(ours, second);
    vec![name, times(ours), times(second), ratio]
}

/// Writes how many times another contender's time one takes.
pub fn ratio(ours: &Times, other: &Times) -> String {
    format!("{:.2}", ours.ratio(other))
}

/// Gives the cells of the second program with another CRC, where it was timed, and of the ratio to it.
pub fn with_crc(ours: &Times, other: Option<&Times>) -> [String; 2] {
    match other {
        Some(other) => [times(other), ratio(ours, other)],
        None => [NONE, NONE].map(String::from),
    }
}

/// What stands where a row has no value.
pub const NONE: &str = "–";

/// An aim, where there is one: ours at most so many times the second program or, of a rate, at least so many times.
#[derive(Clone, Copy, Debug)]
pub struct Aim(pub Option<f64>);

impl Aim {
    /// Gives the cells of the aim, and of whether a rate is at least that.
    pub fn at_least(self, rate: f64) -> [String; 2] {
        let [aim, _] = self.cells(rate);
        let met = match self.0 {
            Some(least) if rate >= least => "yes",
            Some(_) => "no",
            None => NONE,
        };
        [aim, String::from(met)]
    }

    /// Gives the cells of the aim, and of whether a ratio meets it.
    pub fn cells(self, ratio: f64) -> [String; 2] {
        match self.0 {
            Some(aim) if ratio <= aim => [format!("{aim:.2}"), String::from("yes")],
            Some(aim) => [format!("{aim:.2}"), String::from("no")],
            None => [NONE, NONE].map(String::from),
        }
    }
}

/// Writes a contender's median and, in brackets, the quartiles of its rounds.
pub fn times(times: &Times) -> String {
    let (lower, upper) = times.quartiles();
    let text = [times.median(), lower, upper].map(number);
    format!("{} ({} to {})", text[0], text[1], text[2])
}

/// Writes a number with one digit after the point, with none from a thousand on.
pub fn number(value: f64) -> String {
    if value >= 1000.0 {
        grouped(value.round() as u64)
    } else {
        format!("{value:.1}")
    }
}

/// Writes a whole number with commas.
pub fn grouped(value: u64) -> String {
    if value < 1000 {
        return value.to_string();
    }
    format!("{},{:03}", grouped(value / 1000), value % 1000)
}
