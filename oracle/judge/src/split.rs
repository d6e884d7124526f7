//! The value split of the Rust, over texts given as bytes.

use crate::line::listed;
use recognizer::utils::get_allowed_and_default_output_values;

/// What the split of a text comes to.
#[derive(Debug, Clone, PartialEq, Eq)]
pub enum Split {
    /// The text is its own allowed values, and there is no default.
    Own,
    /// The allowed values and the default.
    Values(String, String),
    /// Number 1, with the place of the first ill-formed bytes.
    IllFormed(usize),
}

/// The split of a text.
pub fn split_of(text: &[u8]) -> Split {
    let text = match std::str::from_utf8(text) {
        Ok(text) => text.to_string(),
        Err(error) => return Split::IllFormed(error.valid_up_to()),
    };
    match get_allowed_and_default_output_values(&Some(text)) {
        (Some(values), Some(default)) => Split::Values(values, default),
        _ => Split::Own,
    }
}

/// The line that is printed for one text.
pub fn judge_split(text: &[u8]) -> String {
    match split_of(text) {
        Split::Own => "own".to_string(),
        Split::Values(values, default) => {
            format!("values {} default {}", listed(values.as_bytes()), listed(default.as_bytes()))
        }
        Split::IllFormed(place) => format!("refused 1 {place} 0"),
    }
}
