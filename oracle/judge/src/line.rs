//! The lines that the port is compared on: a word that tells the kind, and a list of bytes.

use crate::drawing::{judge_drawing, stage};
use crate::lent::Lent;
use crate::limits::RECORD_BYTES;
use crate::outcome::{Fault, Judged};
use crate::packed::unpack;
use crate::split::judge_split;
use crate::told::{Answer, plane_answer, sheet_answer};
use crate::upright::{judge_upright, upright_of};
use std::io::Write;

/// Answers a line; `out` must write to standard output.
pub fn answer(out: &mut impl Write, line: &str) -> Judged<()> {
    match parse(line)? {
        ("split", bytes) => {
            writeln!(out, "{}", judge_split(&bytes)).map_err(|error| Fault(error.to_string()))
        }
        ("drawing", bytes) => judge_drawing(out, &bytes),
        ("plane", bytes) => {
            let lent = lent_in(line, &bytes)?;
            out.write_all(&judge_upright(&lent)).map_err(|error| Fault(error.to_string()))
        }
        ("sheet", bytes) => record(out, sheet_answer(&bytes)?),
        ("table", bytes) => {
            let lent = lent_in(line, &bytes)?;
            record(out, plane_answer(&lent, &upright_of(&lent))?)
        }
        _ => Err(fault(line)),
    }
}

fn lent_in(line: &str, bytes: &[u8]) -> Judged<Lent> {
    unpack(bytes).ok_or_else(|| fault(line))
}

/// The record, or the refusal, as the program of document 01 prints it.
fn record(out: &mut impl Write, answer: Answer) -> Judged<()> {
    let lines = answer.outcome.within(RECORD_BYTES).print();
    out.write_all(&lines).map_err(|error| Fault(error.to_string()))
}

/// The stage that the sheet of a line comes to.
pub fn stage_of(line: &str) -> Judged<String> {
    match parse(line)? {
        ("drawing", bytes) => stage(&bytes),
        _ => Err(fault(line)),
    }
}

fn fault(line: &str) -> Fault {
    Fault(format!("not a line to answer: {line}"))
}

/// The kind and the bytes of a line `KIND N b0 .. b(N-1)`.
fn parse(line: &str) -> Judged<(&str, Vec<u8>)> {
    let (kind, list) = line.split_once(' ').ok_or_else(|| fault(line))?;
    let numbers: Option<Vec<usize>> = list.split(' ').map(|n| n.parse().ok()).collect();
    let numbers = numbers.ok_or_else(|| fault(line))?;
    let (count, bytes) = numbers.split_first().ok_or_else(|| fault(line))?;
    let bytes: Option<Vec<u8>> = bytes.iter().map(|byte| u8::try_from(*byte).ok()).collect();
    let bytes = bytes.filter(|bytes| bytes.len() == *count).ok_or_else(|| fault(line))?;
    Ok((kind, bytes))
}

/// Numbers as their count and then each of them.
pub fn listed<N: ToString>(numbers: &[N]) -> String {
    let mut out = numbers.len().to_string();
    for number in numbers {
        out.push(' ');
        out.push_str(&number.to_string());
    }
    out
}
