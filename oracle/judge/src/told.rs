//! Answers all of whose numbers are told: those that the Rust's messages leave out are the judge's.

use crate::canvas;
use crate::clauses::refusal_of;
use crate::lent::{Lent, judge_plane};
use crate::outcome::{Judged, Outcome, Told, agree, run};
use crate::placement::condition;
use crate::record::is_by_rows;
use crate::sheet::{judged_sheet, rows_of};
use crate::upright::{Upright, upright_of};
use recognizer::canvas::Canvas;

/// A record or a refusal, with the condition of a 10, the limit of a 7 and the cause of a 26.
#[derive(Debug, Clone, PartialEq, Eq)]
pub struct Answer {
    pub outcome: Outcome,
    pub condition: Option<&'static str>,
}

impl Answer {
    /// What is counted: the number, with the check of 25, the slice of 28, and the condition.
    pub fn name(&self) -> String {
        match (&self.outcome, self.condition) {
            (Outcome::Record(bytes), _) if is_by_rows(bytes) => "record rows".to_string(),
            (Outcome::Record(_), _) => "record columns".to_string(),
            (Outcome::Refused(n @ (25 | 28), which, _), _) => format!("refused {n} {which}"),
            (Outcome::Refused(number, _, _), Some(name)) => format!("refused {number} {name}"),
            (Outcome::Refused(number, _, _), None) => format!("refused {number}"),
        }
    }
}

impl From<Outcome> for Answer {
    fn from(outcome: Outcome) -> Self {
        Answer { outcome, condition: None }
    }
}

/// Whether what the Rust tells is what is read.
fn is_told(rust: &Outcome, read: &Outcome) -> bool {
    let fits = |told: &Told, read: &Told| *told == Told::Unknown || told == read;
    match (rust, read) {
        (Outcome::Refused(n, a, b), Outcome::Refused(k, c, d)) => {
            n == k && fits(a, c) && fits(b, d)
        }
        _ => false,
    }
}

/// The answer to a lent plane, whose upright sheet is given; no record is too long. Where no sheet is stated, that refusal is
/// the answer.
pub fn plane_answer(lent: &Lent, upright: &Result<Upright, Outcome>) -> Judged<Answer> {
    let differs = || format!("the reading of the clauses differs on:\n{}", lent.line());
    match upright {
        Err(refused) => {
            Ok(Answer { outcome: refused.clone(), condition: condition(lent, refused) })
        }
        Ok(sheet) => told(judge_plane(lent, usize::MAX), sheet, differs),
    }
}

/// An outcome with what is read off its upright sheet.
fn told(outcome: Outcome, sheet: &Upright, differs: impl FnOnce() -> String) -> Judged<Answer> {
    match refusal_of(sheet) {
        Some(read) => {
            agree(is_told(&outcome, &read.outcome), differs)?;
            Ok(Answer { outcome: read.outcome, condition: read.condition })
        }
        None => {
            agree(matches!(outcome, Outcome::Record(_)), differs)?;
            Ok(outcome.into())
        }
    }
}

/// The plane of a sheet as a lent one, where there is one; the judge's own, which is the Rust's.
fn lent_of(bytes: &[u8]) -> Option<Lent> {
    let (text, rows) = rows_of(bytes).ok()?;
    if !matches!(run(|| Canvas::scan(text)), Ok(Ok(_))) {
        return None;
    }
    let plane = canvas::plane(&rows).ok()?;
    let cells = || plane.rows.iter().flatten();
    let mut lent = Lent {
        row_lengths: plane.rows.iter().map(|row| row.len() as u64).collect(),
        kinds: cells().map(|cell| cell.kind).collect(),
        regions: cells().map(|cell| cell.region as u64).collect(),
        ..Lent::default()
    };
    for text in &plane.texts {
        lent.offsets.push(lent.bytes.len() as u64);
        lent.lengths.push(text.len() as u64);
        lent.bytes.extend_from_slice(text.as_bytes());
    }
    Some(lent)
}

/// The answer to a sheet; no record is too long. What a refused sheet's plane states must be refused
/// as the sheet is.
pub fn sheet_answer(bytes: &[u8]) -> Judged<Answer> {
    let (outcome, limit) = judged_sheet(bytes)?;
    let lent = match &outcome {
        Outcome::Refused(8.., _, _) => lent_of(bytes),
        _ => None,
    };
    let Some(lent) = lent else { return Ok(Answer { outcome, condition: limit }) };
    let answer = plane_answer(&lent, &upright_of(&lent))?;
    agree(is_told(&outcome, &answer.outcome), || {
        format!("the plane is answered otherwise than its sheet:\n{}", lent.line())
    })?;
    Ok(answer)
}
