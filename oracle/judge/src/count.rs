//! Counts of answers by outcome.

use std::collections::BTreeMap;
use std::fmt;

/// Outcomes with a number to sort by, each with its count.
#[derive(Debug, Default)]
pub struct Counts(BTreeMap<(u32, String), usize>);

impl Counts {
    /// Counts that show the given lines' outcomes even where there are none.
    pub fn showing(lines: &[String]) -> Self {
        Self(lines.iter().filter_map(|line| outcome(line)).map(|outcome| (outcome, 0)).collect())
    }

    /// Counts the outcome that a line tells, if it tells one.
    pub fn add(&mut self, line: &str) {
        if let Some(outcome) = outcome(line) {
            *self.0.entry(outcome).or_default() += 1;
        }
    }

    /// Adds other counts.
    pub fn add_all(&mut self, other: Counts) {
        for (outcome, count) in other.0 {
            *self.0.entry(outcome).or_default() += count;
        }
    }

    /// The count of an outcome.
    pub fn of(&self, name: &str) -> usize {
        self.0.iter().find(|((_, known), _)| known == name).map_or(0, |(_, count)| *count)
    }

    /// The counts of the outcomes with such names, added up.
    pub fn sum(&self, is_such: impl Fn(&str) -> bool) -> usize {
        self.0.iter().filter(|((_, name), _)| is_such(name)).map(|(_, count)| count).sum()
    }

    pub fn all(&self) -> usize {
        self.0.values().sum()
    }
}

impl fmt::Display for Counts {
    fn fmt(&self, f: &mut fmt::Formatter<'_>) -> fmt::Result {
        for ((_, name), count) in &self.0 {
            writeln!(f, "{name} {count}")?;
        }
        writeln!(f, "all {}", self.all())
    }
}

/// Counts the answers to sheets, planes, plane lines or splits, or their causes; one line for each outcome.
pub fn count(answers: &[u8]) -> String {
    let mut counts = Counts::default();
    for line in answers.split(|byte| *byte == b'\n') {
        counts.add(&String::from_utf8_lossy(line));
    }
    counts.to_string()
}

/// The outcome that a line tells, with a number to sort by.
fn outcome(line: &str) -> Option<(u32, String)> {
    let mut words = line.split(' ');
    let outcome = match (words.next()?, words.next()) {
        ("orientation", Some("0")) => (0, "record rows".to_string()),
        ("orientation", Some("1")) => (1, "record columns".to_string()),
        ("record", Some("rows")) => (0, line.to_string()),
        ("record", Some("columns")) => (1, line.to_string()),
        ("own", None) => (2, "own".to_string()),
        ("values", _) => (3, "values".to_string()),
        ("upright", Some("0")) => (4, "upright rows".to_string()),
        ("upright", Some("1")) => (5, "upright columns".to_string()),
        ("refused", Some(number)) => {
            (10 + number.parse::<u32>().ok()?, refusal(number, words.next()))
        }
        _ => return None,
    };
    Some(outcome)
}

/// The number of a refusal, with the check of 25, the slice of 28 and a condition in words, if it is told.
fn refusal(number: &str, detail: Option<&str>) -> String {
    match detail {
        Some(detail)
            if number == "25"
                || number == "28"
                || detail.starts_with(|c: char| c.is_ascii_alphabetic()) =>
        {
            format!("refused {number} {detail}")
        }
        _ => format!("refused {number}"),
    }
}
