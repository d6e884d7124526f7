//! The judge's own reading of an upright sheet, for what the messages of the clause rules leave out: the place of 18, the rows
//! of 20, and which condition of 10 holds. What the Rust tells must be what is read here.

use crate::outcome::{Outcome, refused, refused_plainly};
use crate::rows::Rows;
use crate::upright::Upright;

/// A refusal, with the condition that holds where it is 10: P7, the annotation crossing is not right of the main one; P8, row 0
/// ends before the outputs begin; P9, row 0 ends before the annotations begin.
#[derive(Debug, Clone, PartialEq, Eq)]
pub struct Refusal {
    pub outcome: Outcome,
    pub condition: Option<&'static str>,
}

impl From<Outcome> for Refusal {
    fn from(outcome: Outcome) -> Self {
        Refusal { outcome, condition: None }
    }
}

type Read<T> = Result<T, Refusal>;

fn ten(condition: &'static str) -> Refusal {
    Refusal { outcome: refused_plainly(10), condition: Some(condition) }
}

/// Columns from the first to before the last.
type Columns = std::ops::Range<usize>;

struct Sheet<'a> {
    rows: &'a Rows,
}

impl Sheet<'_> {
    fn height(&self) -> usize {
        self.rows.len()
    }

    /// The column and the row of the first cell of a kind that is no region.
    fn first(&self, kind: u32) -> Option<(usize, usize)> {
        let in_row = |row: &Vec<u32>| row.iter().position(|cell| *cell == kind);
        self.rows.iter().enumerate().find_map(|(y, row)| in_row(row).map(|x| (x, y)))
    }

    /// The region of a cell; 18 or 19 where there is none.
    fn region(&self, y: usize, x: usize) -> Read<u32> {
        let place = |number| Refusal::from(refused(number, y.into(), x.into()));
        let cell = self.rows.get(y).and_then(|row| row.get(x)).ok_or_else(|| place(18))?;
        if cell % 8 == 0 { Ok(cell / 8) } else { Err(place(19)) }
    }

    /// Reads some columns of some rows, row by row.
    fn read(&self, rows: std::ops::Range<usize>, columns: Columns) -> Read<()> {
        for y in rows {
            for x in columns.clone() {
                self.region(y, x)?;
            }
        }
        Ok(())
    }

    /// Whether rows 0 and 1 have one region in each column, up to the first that has two.
    fn is_joined(&self, columns: Columns) -> Read<bool> {
        for x in columns {
            if self.region(0, x)? != self.region(1, x)? {
                return Ok(false);
            }
        }
        Ok(true)
    }

    /// Whether no region stands twice in two rows, up to the first that does.
    fn is_apart(&self, top: usize, columns: Columns) -> Read<bool> {
        let mut seen = vec![];
        for y in top..top + 2 {
            for x in columns.clone() {
                let region = self.region(y, x)?;
                if seen.contains(&region) {
                    return Ok(false);
                }
                seen.push(region);
            }
        }
        Ok(true)
    }

    /// Whether each column by itself has no region twice in the rows 1 and 2.
    fn are_apart(&self, columns: Columns) -> Read<bool> {
        for x in columns {
            if !self.is_apart(1, x..x + 1)? {
                return Ok(false);
            }
        }
        Ok(true)
    }

    /// Whether allowed values stand above the double line, by the count of clause rows.
    fn has_values(&self, clause_rows: usize, inputs: Columns, outputs: Columns) -> Read<bool> {
        match clause_rows {
            1 => Ok(false),
            2 => {
                let inputs_joined = self.is_joined(inputs.clone())?;
                let outputs_joined = self.is_joined(outputs.clone())?;
                let outputs_apart = self.is_apart(0, outputs.clone())?;
                let is_free = inputs.is_empty() && outputs.len() > 1;
                Ok(!inputs_joined || (is_free && (outputs_joined || outputs_apart)))
            }
            3 if !self.are_apart(inputs)? => Err(refused_plainly(21).into()),
            3 if !self.are_apart(outputs)? => Err(refused_plainly(22).into()),
            3 => Ok(true),
            rows => Err(refused(20, rows.into(), 0.into()).into()),
        }
    }

    /// The clause rows of the outputs.
    fn read_outputs(&self, clause_rows: usize, columns: Columns, has_values: bool) -> Read<()> {
        let label = columns.start..columns.start + 1;
        match (columns.len(), clause_rows) {
            (0, _) => Err(refused_plainly(23).into()),
            (1, 3) => Err(refused_plainly(24).into()),
            (1, _) => self.read(0..clause_rows, columns),
            (_, 2) if has_values => self.read(0..2, columns),
            (_, 1) => self.read(0..1, columns),
            _ => {
                self.read(0..1, label)?;
                self.read(1..clause_rows, columns)
            }
        }
    }

    /// Reads the sheet in the order of the clause rules, then checks 8 and 12 of its sizes.
    fn checked(&self, rules: usize) -> Read<()> {
        let (x, y) = self.first(5).ok_or_else(|| refused_plainly(9))?;
        let crossing = self.first(6);
        let (width, height) = (self.rows[0].len(), self.height());
        let right = crossing.map_or(width, |(x, _)| x);
        if right <= x {
            return Err(ten(if crossing.is_some() { "P7" } else { "P8" }));
        }
        let (inputs, outputs) = (0..x, x + 1..right);
        let has_values = self.has_values(y, inputs.clone(), outputs.clone())?;
        self.read(0..1, inputs.clone())?;
        self.read(if has_values { y - 1..y } else { 0..0 }, inputs.clone())?;
        self.read(y + 1..height, inputs)?;
        self.read_outputs(y, outputs.clone(), has_values)?;
        self.read(y + 1..height, outputs)?;
        let annotated = self.read_annotations(crossing, width)?;
        let checks = [(8, Some(height - y - 1)), (12, annotated)];
        let failed = |(_, rows): &(usize, Option<usize>)| rows.is_some_and(|rows| rows != rules);
        match checks.into_iter().find(failed) {
            Some((check, _)) => Err(refused(25, check.into(), 0.into()).into()),
            None => Ok(()),
        }
    }

    /// Reads the annotations; the count of their rows, where there are columns of them.
    fn read_annotations(
        &self,
        crossing: Option<(usize, usize)>,
        width: usize,
    ) -> Read<Option<usize>> {
        let Some((x, y)) = crossing else { return Ok(None) };
        if width <= x {
            return Err(ten("P9"));
        }
        self.read(0..1, x + 1..width)?;
        self.read(y + 1..self.height(), x + 1..width)?;
        Ok((x + 1 < width).then_some(self.height() - y - 1))
    }
}

/// The refusal of an upright sheet by the clause rules and the sizes, if there is one.
pub fn refusal_of(sheet: &Upright) -> Option<Refusal> {
    Sheet { rows: &sheet.rows }.checked(sheet.rules as usize).err()
}
