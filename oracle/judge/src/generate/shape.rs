//! The shape of a decision table, its boxes and its texts.

use super::draw::Drawing;
use super::grid::{Grid, Places};
use super::random::Random;
use super::texts;

/// The counts of a table.
#[derive(Debug, Clone, Copy)]
pub struct Shape {
    /// Rules as rows, else as columns.
    pub by_rows: bool,
    pub inputs: usize,
    pub outputs: usize,
    pub annotations: usize,
    pub clause_rows: usize,
    pub rules: usize,
}

/// A table that is wrong in one way, though drawn well.
#[derive(Debug, Clone, Copy, PartialEq, Eq)]
pub enum Flaw {
    None,
    /// A text in the place of the hit policy that is none.
    Policy,
    /// The hit policy and a number stand in the wrong corners.
    PolicyElsewhere,
    /// A rule number is another one, or none.
    Number,
    /// No hit policy and no rule numbers.
    Unnumbered,
    /// A rule number in two rows or columns.
    JoinedNumber,
    /// The label of a column sheet is a number, or its first input is a hit policy.
    Label,
    /// A text has a box character in it.
    Boxed,
    /// Boxes are joined anywhere in the clauses.
    Joined,
    /// An annotation line where there should be none.
    Lines,
    /// Too many clause rows, for any table or for one output.
    Clauses,
    /// Pieces of lines are rubbed out or drawn.
    Pieces,
    /// Hardly any texts, and columns and rows without room for any.
    Bare,
}

pub const FLAWS: [Flaw; 17] = [
    Flaw::Policy,
    Flaw::PolicyElsewhere,
    Flaw::Number,
    Flaw::Unnumbered,
    Flaw::JoinedNumber,
    Flaw::Label,
    Flaw::Boxed,
    Flaw::Joined,
    Flaw::Lines,
    Flaw::Clauses,
    Flaw::Pieces,
    Flaw::Pieces,
    Flaw::Pieces,
    Flaw::Pieces,
    Flaw::Bare,
    Flaw::Bare,
    Flaw::Bare,
];

impl Shape {
    /// A random shape that the Rust takes.
    pub fn random(random: &mut Random) -> Self {
        let by_rows = random.chance(55);
        let clause_rows = random.pick(&[1, 1, 1, 2, 2, 2, 3, 3]);
        Self {
            by_rows,
            // a column sheet without inputs has no row above its double line
            inputs: random.between(if by_rows { 0 } else { 1 }, 5),
            // three clause rows are for several outputs
            outputs: random.between(if clause_rows == 3 { 2 } else { 1 }, 4),
            annotations: random.pick(&[0, 0, 0, 1, 2, 3]),
            clause_rows,
            rules: random.pick(&[1, 1, 2, 2, 3, 3, 4, 5, 8]),
        }
    }

    /// The same with too many clause rows.
    pub fn with_too_many_clause_rows(self, random: &mut Random) -> Self {
        if random.chance(50) {
            Self { clause_rows: random.between(4, 5), ..self }
        } else {
            Self { clause_rows: 3, outputs: 1, ..self }
        }
    }

    pub fn columns(&self) -> usize {
        self.inputs + self.outputs + self.annotations
    }

    pub fn rows(&self) -> usize {
        self.clause_rows + self.rules
    }

    /// The columns of inputs, outputs and annotations.
    fn sections(&self) -> [(usize, usize); 3] {
        let outputs = self.inputs + self.outputs;
        [(0, self.inputs), (self.inputs, outputs), (outputs, self.columns())]
    }

    /// The places of a section in the clause rows.
    fn clauses(&self, section: usize) -> Places {
        let (left, right) = self.sections()[section];
        Places::new(left, 0, right, self.clause_rows)
    }

    /// The places of a section in the rules.
    fn entries(&self, section: usize) -> Places {
        let (left, right) = self.sections()[section];
        Places::new(left, self.clause_rows, right, self.rows())
    }

    /// The upright grid: no hit policy, no rule numbers.
    pub fn upright(&self, random: &mut Random, flaw: Flaw) -> Grid {
        let mut grid = Grid::new(self.columns(), self.rows());
        self.join_inputs(random, &mut grid);
        self.join_outputs(random, &mut grid);
        self.join_annotations(random, &mut grid);
        if matches!(flaw, Flaw::Joined | Flaw::Bare) {
            join_somewhere(random, &mut grid, self.clauses(0));
            join_somewhere(random, &mut grid, self.clauses(1));
        }
        for section in 0..3 {
            if random.chance(30) {
                join_somewhere(random, &mut grid, self.entries(section));
                join_somewhere(random, &mut grid, self.entries(section));
            }
        }
        if flaw != Flaw::Bare || random.chance(10) {
            self.write_texts(random, &mut grid);
        }
        grid
    }

    /// The clause rows of inputs: expressions over all rows, or over all but the allowed values.
    fn join_inputs(&self, random: &mut Random, grid: &mut Grid) {
        let places = self.clauses(0);
        let style = random.below(4);
        for x in places.left..places.right {
            let column = Places { left: x, right: x + 1, ..places };
            match (self.clause_rows, style) {
                (2, 0 | 1) => grid.join(column),
                (2, 2) if random.chance(50) => grid.join(column),
                (3, 0..=2) => grid.join(Places { bottom: 2, ..column }),
                _ => {}
            }
        }
        if self.clause_rows < 3 && random.chance(15) {
            join_somewhere(random, grid, places);
        }
    }

    /// The clause rows of outputs: a joined label above, boxes apart, or each over all rows.
    fn join_outputs(&self, random: &mut Random, grid: &mut Grid) {
        let places = self.clauses(1);
        let label = Places { bottom: 1, ..places };
        match (self.clause_rows, random.below(8)) {
            (2 | 3, 0..=3) => grid.join(label),
            (2, 4) => grid.join_columns(places),
            (2, 5) => {
                join_somewhere(random, grid, places);
                join_somewhere(random, grid, places);
            }
            (3, 5) => grid.join_columns(Places { bottom: 2, ..places }),
            (1, 5) => join_somewhere(random, grid, places),
            _ => {}
        }
    }

    fn join_annotations(&self, random: &mut Random, grid: &mut Grid) {
        let places = self.clauses(2);
        match random.below(8) {
            0 => grid.join(places),
            1 => join_somewhere(random, grid, places),
            2 => {}
            _ => grid.join_columns(places),
        }
    }

    /// Writes a text in every box, by the part of its first place.
    fn write_texts(&self, random: &mut Random, grid: &mut Grid) {
        for (_, extent) in grid.extents() {
            let text = self.text_at(random, extent.left, extent.top);
            let lines = texts::wrapped(random, &text);
            grid.write(extent.left, extent.top, lines);
        }
    }

    fn text_at(&self, random: &mut Random, x: usize, y: usize) -> String {
        let is_annotation = x >= self.inputs + self.outputs;
        let text = if y >= self.clause_rows {
            texts::entry(random)
        } else if y > 0 && y + 1 == self.clause_rows && !is_annotation {
            texts::values(random)
        } else if random.chance(4) {
            String::new()
        } else {
            texts::stop(random)
        };
        texts::varied(random, text)
    }

    /// The whole grid with hit policy and rule numbers, turned for a column sheet.
    pub fn whole(&self, random: &mut Random, flaw: Flaw, upright: Grid) -> Grid {
        let mut grid = upright;
        let side = self.policy_and_numbers(random, flaw);
        if self.by_rows {
            grid.add_first_column();
            self.join_side(random, flaw, &mut grid);
            for (y, text) in side.into_iter().enumerate() {
                write_side(&mut grid, 0, y, text);
            }
        } else {
            self.spoil_label(random, flaw, &mut grid);
            grid.turn();
            grid.add_last_row();
            self.join_side(random, flaw, &mut grid);
            for (x, text) in side.into_iter().enumerate() {
                write_side(&mut grid, x, self.columns(), text);
            }
        }
        grid
    }

    /// The boxes of the hit policy and of a doubled number.
    fn join_side(&self, random: &mut Random, flaw: Flaw, grid: &mut Grid) {
        let along = |start: usize, end: usize| {
            if self.by_rows {
                Places::new(0, start, 1, end)
            } else {
                Places::new(start, self.columns(), end, self.columns() + 1)
            }
        };
        if random.chance(85) {
            grid.join(along(0, self.clause_rows));
        }
        if flaw == Flaw::JoinedNumber && self.rules > 1 {
            let first = self.clause_rows + random.below(self.rules - 1);
            grid.join(along(first, first + 2));
        }
    }

    /// A number as the label of a column sheet, or a hit policy as its first input.
    fn spoil_label(&self, random: &mut Random, flaw: Flaw, grid: &mut Grid) {
        if flaw == Flaw::Label && self.inputs < self.columns() {
            if random.chance(70) {
                let text = random.text(&["5", "1", "2", "0", "+1", "18446744073709551615"]);
                grid.write(self.inputs, 0, vec![text]);
            } else {
                let text = random.text(&texts::POLICIES);
                grid.write(0, 0, vec![text]);
            }
        }
    }

    /// The texts of the hit policy and the rule numbers, one for each clause row and rule.
    fn policy_and_numbers(&self, random: &mut Random, flaw: Flaw) -> Vec<String> {
        let mut side = vec![String::new(); self.clause_rows];
        side[0] = random.text(&texts::POLICIES);
        for rule in 1..=self.rules {
            side.push(texts::number(random, rule));
        }
        match flaw {
            Flaw::Policy => side[0] = random.text(&texts::NO_POLICIES),
            Flaw::PolicyElsewhere => {
                let last = side.len() - 1;
                side.swap(0, last);
            }
            Flaw::Number => {
                let place = self.clause_rows + random.below(self.rules);
                side[place] = random.text(&texts::NO_NUMBERS);
            }
            Flaw::Unnumbered => {
                let none = random.text(&["", "x", "-"]);
                side.fill(none);
            }
            _ => {}
        }
        side
    }

    /// The double lines: between rows, and between columns.
    pub fn double_lines(&self, flaw: Flaw) -> (Vec<usize>, Vec<usize>) {
        let mut sections = vec![self.inputs];
        if self.annotations > 0 || (flaw == Flaw::Lines && self.outputs > 1) {
            let left_out = if self.annotations > 0 { 0 } else { 1 };
            sections.push(self.inputs + self.outputs - left_out);
        }
        if self.by_rows {
            (vec![self.clause_rows], sections.iter().map(|x| x + 1).collect())
        } else {
            (sections, vec![self.clause_rows])
        }
    }

    /// The drawing of a random table of this shape.
    pub fn drawing(&self, random: &mut Random, flaw: Flaw) -> Drawing {
        let upright = self.upright(random, flaw);
        let mut grid = self.whole(random, flaw, upright);
        if flaw == Flaw::Boxed {
            let (x, y) = (random.below(grid.columns()), random.below(grid.rows()));
            let lines = texts::boxed(random);
            grid.write(x, y, lines);
        }
        let (mut double_rows, double_columns) = self.double_lines(flaw);
        if flaw == Flaw::Lines && random.chance(40) {
            // one more double line below the first
            double_rows.push(double_rows[0] + 1);
        }
        let mut least = (random.pick(&[0, 1, 2, 3, 3]), random.pick(&[0, 1, 1, 1]));
        if flaw == Flaw::Bare {
            least = (0, 0);
        }
        let mut drawing = Drawing::fitted(random, grid, double_rows, double_columns, least);
        if flaw == Flaw::Pieces || (flaw == Flaw::Bare && random.chance(30)) {
            drawing.redraw_pieces(random);
        }
        drawing
    }
}

fn write_side(grid: &mut Grid, x: usize, y: usize, text: String) {
    let lines = if text.is_empty() { vec![] } else { vec![text] };
    // a joined box keeps its first text
    let number = grid.boxes[y][x];
    if grid.texts[number].is_empty() {
        grid.texts[number] = lines;
    }
}

/// Joins a random rectangle within others.
fn join_somewhere(random: &mut Random, grid: &mut Grid, places: Places) {
    if places.left >= places.right || places.top >= places.bottom {
        return;
    }
    let left = random.between(places.left, places.right - 1);
    let top = random.between(places.top, places.bottom - 1);
    let right = random.between(left + 1, places.right);
    let bottom = random.between(top + 1, places.bottom);
    grid.join(Places::new(left, top, right, bottom));
}
