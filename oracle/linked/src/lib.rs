//! Compares the three entries of the port's static library with the Rust: sheets, lent planes and value splits.

pub mod compare;
pub mod corpora;
pub mod edges;
pub mod inputs;
#[cfg(test)]
mod mock;
mod noise;
mod port;
pub mod report;
pub mod rooms;
pub mod shrink;
mod slices;
mod small;
#[cfg(test)]
mod tests;
pub mod workers;
