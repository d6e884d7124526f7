//! The conditions of number 10 before the clause rules, and the causes of 26: what the answer does not tell, for the counts.

use crate::generate::texts::POLICIES;
use crate::lent::Lent;
use crate::outcome::Outcome;

const VERTICAL: u64 = 1;
const HORIZONTAL: u64 = 3;

/// A cell: its kind and its text, trimmed.
type Cell<'a> = (u64, &'a str);

fn rows(lent: &Lent) -> Vec<Vec<Cell<'_>>> {
    let cell = |place: usize| match lent.kinds[place] {
        0 => (0, lent.text(lent.regions[place] as usize).map_or("", str::trim)),
        kind => (kind, ""),
    };
    let mut place = 0;
    let mut row = |length: &u64| {
        let first = place;
        place += *length as usize;
        (first..place).map(cell).collect()
    };
    lent.row_lengths.iter().map(&mut row).collect()
}

/// How a plane came to a refusal by which it states no upright sheet.
pub fn condition(lent: &Lent, refused: &Outcome) -> Option<&'static str> {
    match refused {
        Outcome::Refused(26, _, _) => lent.cause(),
        Outcome::Refused(10, _, _) => Some(of_ten(&rows(lent))),
        _ => None,
    }
}

/// P1, row 0 has no cells; P2, the last row has none and is asked for its policy; P3, column 0 ends before its double line; P4, it ends
/// below it; P5, the last row is asked for numbers and has no double line; else P6, the plane cannot be turned.
fn of_ten(rows: &[Vec<Cell>]) -> &'static str {
    let last = rows.last().map_or(&[][..], Vec::as_slice);
    let Some(corner) = rows[0].first() else { return "P1" };
    if !POLICIES.contains(&corner.1) && last.is_empty() {
        return "P2";
    }
    let column: Vec<Option<&Cell>> = rows.iter().map(|row| row.first()).collect();
    let is_over = |cell: &Option<&Cell>| cell.is_none_or(|cell| cell.0 == HORIZONTAL);
    let Some(line) = column.iter().position(is_over) else { return "P3" };
    if column[line].is_none() {
        return "P3";
    }
    let is_number = |cell: &Cell| cell.0 == 0 && cell.1.parse::<u64>().is_ok();
    let below = &column[line + 1..];
    match below.iter().find(|cell| !cell.is_some_and(is_number)) {
        Some(None) => return "P4",
        None if !below.is_empty() => return "P6",
        _ => {}
    }
    if last.iter().any(|cell| cell.0 == VERTICAL) { "P6" } else { "P5" }
}
