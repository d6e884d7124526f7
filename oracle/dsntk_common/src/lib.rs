//! Stand-in for the error type that the recognizer leans on.

use std::fmt;

pub use dsntk_macros::ToErrorMessage;

/// Result with the common error.
pub type Result<T, E = DsntkError> = std::result::Result<T, E>;

/// Common error: a message and nothing else.
#[derive(Debug, Clone, PartialEq, Eq)]
pub struct DsntkError(String);

impl DsntkError {
    /// Creates an error from its message.
    pub fn new(message: String) -> Self {
        Self(message)
    }

    /// The message.
    pub fn message(&self) -> &str {
        &self.0
    }
}

impl fmt::Display for DsntkError {
    fn fmt(&self, f: &mut fmt::Formatter<'_>) -> fmt::Result {
        f.write_str(&self.0)
    }
}

impl std::error::Error for DsntkError {}
