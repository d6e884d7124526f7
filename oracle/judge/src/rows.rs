//! The rows of a plane as numbers, and the lines that are printed for them.

use crate::line::listed;
use crate::sheet::kind;
use recognizer::plane::{Cell, Plane};

/// The cells of each row; a cell is 8 times its region's number, or its kind.
pub type Rows = Vec<Vec<u32>>;

fn number(cell: &Cell) -> u32 {
    match cell {
        Cell::Region(number, _, _) => 8 * *number as u32,
        other => kind(other) as u32,
    }
}

/// The rows of a plane of the Rust.
pub fn rows(plane: &Plane) -> Rows {
    let cell = |row, column| number(plane.cell(row, column).expect("within the row"));
    let row = |row| (0..plane.row_len(row)).map(|column| cell(row, column)).collect();
    (0..plane.height()).map(row).collect()
}

/// The line with the count of the rows, and a line for each.
pub fn print(rows: &Rows) -> String {
    let mut lines = format!("plane {}\n", rows.len());
    for row in rows {
        lines.push_str(&listed(row));
        lines.push('\n');
    }
    lines
}
