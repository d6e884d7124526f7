//! From the Rust's messages to the numbers of document 01.

use crate::outcome::{Outcome, Told, refused, refused_plainly};
use dsntk_common::DsntkError;

/// Messages without numbers in them.
const PLAIN: [(&str, u32); 14] = [
    ("plane is empty", 8),
    ("plane no main double crossing", 9),
    ("expected left-below rule numbers placement", 12),
    ("expected top-left hit policy placement", 13),
    ("expected right-after rule numbers placement", 14),
    ("expected bottom-left hit policy placement", 15),
    ("expected no rule numbers present", 16),
    ("recognizing cross-tab decision tables is not yet implemented", 17),
    ("invalid input expressions", 21),
    ("invalid output expressions", 22),
    ("no output clause", 23),
    ("too many rows in output clause", 24),
    // the messages below leave out A and B
    ("plane row is out of range", 18),
    ("plane column is out of range", 18),
];

/// The message that leaves out A.
const TOO_MANY_ROWS: &str = "too many rows in input clause";

/// The checks of `validate_size` in order, each by the start and the end of its message. The last
/// word before a row's index tells a check of rows from a check in a row.
const SIZE_CHECKS: [(&str, &str); 13] = [
    ("number of input expressions (", ""),
    ("number of input values (", ""),
    ("decision table must have minimum one output clause", ""),
    ("number of output components (", ""),
    ("number of output components must be zero", ""),
    ("number of output values (", ""),
    ("decision table must contain minimum one rule", ""),
    ("number of input entries (", "number of rules"),
    ("number of input entries (", "number of input clauses"),
    ("number of output entries (", "number of rules"),
    ("number of output entries (", "number of output clauses"),
    ("number of annotation entries (", "number of rules"),
    ("number of annotation entries (", "number of annotation clauses"),
];

/// The refusal that an error of the Rust stands for.
pub fn refusal(error: &DsntkError) -> Outcome {
    let message = error.message();
    plain(message)
        .or_else(|| of_canvas(message))
        .or_else(|| of_plane(message))
        .or_else(|| of_size(message))
        .unwrap_or_else(|| panic!("a message without a number: {message}"))
}

/// Messages without numbers in them.
fn plain(message: &str) -> Option<Outcome> {
    if message == TOO_MANY_ROWS {
        return Some(refused(20, Told::Unknown, 0.into()));
    }
    let (_, number) = PLAIN.iter().find(|(text, _)| *text == message)?;
    Some(match number {
        18 => refused(18, Told::Unknown, Told::Unknown),
        number => refused_plainly(*number),
    })
}

/// Numbers 3 to 6.
fn of_canvas(message: &str) -> Option<Outcome> {
    if let Some(wanted) = message.strip_prefix("expected characters not found: ") {
        return Some(refused(3, code(wanted)?, 0.into()));
    }
    if let Some(found) = message.strip_prefix("character '") {
        return Some(refused(4, code(found)?, 0.into()));
    }
    // The Rust hands over the point where the walk ended first, so its words are the other way
    // round: where the walk ended stands after "start point".
    if let Some(points) = message.strip_prefix("rectangle is not closed, start point: ") {
        let (ended, _) = points.split_once(", end point: ")?;
        let numbers = numbers_in(ended);
        return Some(refused(5, Told::Number(numbers[0]), Told::Number(numbers[1])));
    }
    let rect = message.strip_prefix("region not found, rect: ")?;
    let numbers = numbers_in(rect);
    Some(refused(6, Told::Number(numbers[0]), Told::Number(numbers[1])))
}

/// Numbers 11 and 19.
fn of_plane(message: &str) -> Option<Outcome> {
    if let Some(number) = message.strip_prefix("plane invalid rule number: ") {
        return Some(refused(11, Told::Number(number.parse().ok()?), 0.into()));
    }
    let place = message.strip_prefix("not a region cell in plane: ")?;
    let numbers = numbers_in(place);
    Some(refused(19, Told::Number(numbers[0]), Told::Number(numbers[1])))
}

/// Number 25.
fn of_size(message: &str) -> Option<Outcome> {
    let details = message.strip_prefix("invalid size: ")?;
    let check = SIZE_CHECKS
        .iter()
        .position(|(start, within)| details.starts_with(start) && details.contains(within))?;
    Some(refused(25, (check + 1).into(), 0.into()))
}

/// The code point of the first character.
fn code(text: &str) -> Option<Told> {
    text.chars().next().map(|c| Told::Number(c as u64))
}

/// All numbers in a text, in their order.
fn numbers_in(text: &str) -> Vec<u64> {
    text.split(|c: char| !c.is_ascii_digit()).filter_map(|digits| digits.parse().ok()).collect()
}
