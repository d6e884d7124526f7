//! What a lent plane states before the clause rules: its orientation, hit policy and rule count, and
//! the upright sheet.

use crate::lent::Lent;
use crate::messages::refusal;
use crate::outcome::{Outcome, refused_plainly, run};
use crate::record::policy;
use crate::rows::{self, Rows, rows};
use recognizer::DecisionTableOrientation;

/// An upright sheet; its regions have the numbers of the lent plane.
#[derive(Debug, Clone, PartialEq, Eq)]
pub struct Upright {
    pub orientation: u32,
    pub policy: u32,
    pub rules: u64,
    pub rows: Rows,
}

impl Upright {
    fn print(&self) -> String {
        let Self { orientation, policy, rules, rows } = self;
        format!("upright {orientation} {policy} {rules}\n{}", rows::print(rows))
    }
}

/// The Rust decides the orientation before it reads a clause, and keeps it where a clause is refused.
pub fn upright_of(lent: &Lent) -> Result<Upright, Outcome> {
    if lent.is_refused() {
        return Err(refused_plainly(26));
    }
    let mut recognizer = lent.recognizer();
    let outcome = run(|| recognizer.recognize_table_components());
    let mut plane = lent.plane();
    let orientation = match recognizer.orientation {
        DecisionTableOrientation::RulesAsRows => {
            plane.remove_first_column();
            0
        }
        DecisionTableOrientation::RulesAsColumns => {
            plane.remove_last_row();
            run(|| plane.pivot())?;
            1
        }
        DecisionTableOrientation::CrossTable => {
            return Err(match outcome {
                Ok(Ok(())) => unreachable!("the Rust reads no crosstab sheet"),
                Ok(Err(error)) => refusal(&error),
                Err(ten) => ten,
            });
        }
    };
    Ok(Upright {
        orientation,
        policy: policy(recognizer.hit_policy) as u32,
        rules: recognizer.rule_count as u64,
        rows: rows(&plane),
    })
}

/// The lines that answer a lent plane up to its upright sheet.
pub fn judge_upright(lent: &Lent) -> Vec<u8> {
    match upright_of(lent) {
        Ok(upright) => upright.print().into_bytes(),
        Err(outcome) => outcome.print(),
    }
}
