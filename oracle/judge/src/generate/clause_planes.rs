//! Lent planes whose hit policy and rule numbers are right, so that the clause rules are reached, with changes that aim at
//! their refusals.

use super::planes::{Cell, Made, change, lend, made};
use super::random::Random;
use super::shape::{Flaw, Shape};
use crate::lent::Lent;

/// A plane and the places of its crossings in the upright sheet.
struct Aimed {
    made: Made,
    shape: Shape,
}

/// The kinds of cells in a row sheet; `kind` turns them.
const MAIN: u64 = 5;
const CROSSING: u64 = 6;

impl Aimed {
    /// The column of the main crossing in the upright sheet.
    fn main_column(&self) -> usize {
        self.shape.inputs
    }

    /// The column of the annotation crossing, where there is one.
    fn crossing_column(&self) -> usize {
        self.shape.inputs + 1 + self.shape.outputs
    }

    /// The row of both.
    fn row(&self) -> usize {
        self.shape.clause_rows
    }

    fn height(&self) -> usize {
        self.shape.rows() + 1
    }

    /// The columns of the upright sheet.
    fn width(&self) -> usize {
        self.shape.columns() + 1 + usize::from(self.shape.annotations > 0)
    }

    /// The cell at a place of the upright sheet.
    fn cell(&mut self, row: usize, column: usize) -> Option<&mut Cell> {
        let (y, x) = if self.shape.by_rows { (row, column + 1) } else { (column, row) };
        self.made.rows.get_mut(y)?.get_mut(x)
    }

    /// A kind of the upright sheet, as it is in the plane.
    fn kind(&self, kind: u64) -> u64 {
        match kind {
            CROSSING if !self.shape.by_rows => 7,
            1 | 3 if !self.shape.by_rows => 4 - kind,
            kind => kind,
        }
    }

    fn put(&mut self, row: usize, column: usize, kind: u64) {
        let kind = self.kind(kind);
        if let Some(cell) = self.cell(row, column) {
            cell.0 = kind;
        }
    }

    /// Takes a crossing from its place and puts it in another.
    fn move_crossing(&mut self, kind: u64, row: usize, column: usize) {
        let old = if kind == MAIN { self.main_column() } else { self.crossing_column() };
        self.put(self.row(), old, 3);
        self.put(row, column, kind);
    }

    /// One region for two cells, one above the other.
    fn join(&mut self, row: usize, column: usize) {
        let Some(upper) = self.cell(row, column).map(|cell| *cell) else { return };
        if let Some(lower) = self.cell(row + 1, column) {
            *lower = upper;
        }
    }

    /// Makes a row of the plane shorter; in a row sheet, one of the upright sheet.
    fn shorten(&mut self, row: usize, columns: usize) {
        if let Some(row) = self.made.rows.get_mut(row) {
            row.truncate(columns + 1);
        }
    }

    /// A change that aims at a refusal; it may come to another, or to none.
    fn aim(&mut self, random: &mut Random) {
        let (main, crossing, row) = (self.main_column(), self.crossing_column(), self.row());
        let below = random.between(row + 1, self.height() - 1);
        let any_row = random.below(self.height());
        let any_column = random.below(self.width());
        match random.below(12) {
            // 25, by check 12: the annotations have fewer rows than there are rules
            0 | 1 => self.move_crossing(CROSSING, below, crossing),
            // 10, by P7
            2 => self.move_crossing(CROSSING, any_row, random.below(main + 1)),
            // 10, by P8 and by P9
            3 => self.shorten(0, random.below(main + 2)),
            4 => self.shorten(0, crossing),
            // 20 where it is row 0, 25 by check 8, 19
            5 => self.move_crossing(MAIN, any_row, main),
            6 => self.move_crossing(MAIN, row, any_column),
            // 9
            7 => self.put(row, main, 3),
            // 18
            8 => self.shorten(any_row, random.below(self.width())),
            // 19
            9 => self.put(any_row, any_column, random.pick(&[1, 2, 3, 4])),
            // 21 and 22, or another reading of two rows
            _ => self.join(row.saturating_sub(2), any_column),
        }
    }
}

fn shape(random: &mut Random) -> Shape {
    let inputs = random.below(4);
    let outputs = random.pick(&[0, 1, 1, 2, 2, 2, 3]);
    Shape {
        by_rows: random.chance(60),
        inputs,
        outputs: if inputs == 0 { outputs.max(1) } else { outputs },
        annotations: random.pick(&[0, 1, 1, 2]),
        clause_rows: random.pick(&[1, 1, 2, 2, 2, 3, 3, 3, 4]),
        rules: random.between(1, 4),
    }
}

/// A lent plane that the clause rules decide on, unless a change of another sort is made too.
pub fn plane(random: &mut Random) -> Lent {
    let shape = shape(random);
    let mut aimed = Aimed { made: made(random, shape, Flaw::None), shape };
    for _ in 0..random.pick(&[0, 1, 1, 1, 1, 2]) {
        aimed.aim(random);
    }
    if random.once_in(10) {
        change(random, &mut aimed.made);
    }
    lend(random, &aimed.made)
}
