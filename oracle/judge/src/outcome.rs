//! The answer to a sheet or to a lent plane, and how it is printed.

use crate::record;
use std::cell::Cell;
use std::fmt;
use std::panic::{AssertUnwindSafe, catch_unwind};
use std::sync::Once;

thread_local! {
    /// The Rust is being run: its panics are answers.
    static RUNNING: Cell<bool> = const { Cell::new(false) };
}

/// A number of a refusal. Not all are told by the Rust's messages.
#[derive(Debug, Clone, Copy, PartialEq, Eq)]
pub enum Told {
    Number(u64),
    Unknown,
}

impl From<usize> for Told {
    fn from(number: usize) -> Self {
        Told::Number(number as u64)
    }
}

impl fmt::Display for Told {
    fn fmt(&self, f: &mut fmt::Formatter<'_>) -> fmt::Result {
        match self {
            Told::Number(number) => write!(f, "{number}"),
            Told::Unknown => f.write_str("?"),
        }
    }
}

/// The bytes of a record, or the number of a refusal with its A and B.
#[derive(Debug, Clone, PartialEq, Eq)]
pub enum Outcome {
    Record(Vec<u8>),
    Refused(u32, Told, Told),
}

impl Outcome {
    /// The lines that are printed.
    pub fn print(&self) -> Vec<u8> {
        match self {
            Outcome::Record(bytes) => record::print(bytes),
            Outcome::Refused(number, a, b) => format!("refused {number} {a} {b}\n").into_bytes(),
        }
    }

    /// Number 27, the last of all: a record that the slice does not hold.
    pub fn within(self, record_bytes: usize) -> Self {
        match self {
            Outcome::Record(bytes) if bytes.len() > record_bytes => {
                refused(27, bytes.len().into(), 0.into())
            }
            other => other,
        }
    }
}

/// A refusal that tells A and B.
pub fn refused(number: u32, a: Told, b: Told) -> Outcome {
    Outcome::Refused(number, a, b)
}

/// A refusal whose A and B are 0.
pub fn refused_plainly(number: u32) -> Outcome {
    refused(number, 0.into(), 0.into())
}

/// Runs a piece of the Rust. A panic is number 10.
pub fn run<T>(piece: impl FnOnce() -> T) -> Result<T, Outcome> {
    RUNNING.set(true);
    let value = catch_unwind(AssertUnwindSafe(piece));
    RUNNING.set(false);
    value.map_err(|_| refused_plainly(10))
}

/// Keeps the panics of the Rust from printing, and no others.
pub fn silence_the_rust() {
    static SILENCED: Once = Once::new();
    SILENCED.call_once(|| {
        let print = std::panic::take_hook();
        std::panic::set_hook(Box::new(move |info| {
            if !RUNNING.get() {
                print(info);
            }
        }));
    });
}

/// The judge and the Rust differ, or an input is not in its format. Ends the run.
#[derive(Debug, Clone, PartialEq, Eq)]
pub struct Fault(pub String);

/// A result that ends the run on a fault.
pub type Judged<T> = Result<T, Fault>;

/// A fault, if the judge and the Rust differ.
pub fn agree(same: bool, what: impl FnOnce() -> String) -> Judged<()> {
    if same { Ok(()) } else { Err(Fault(what())) }
}
