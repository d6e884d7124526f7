//! Drawings made by hand for their planes, each with what is printed behind its name.

use crate::limits::{PLANE_CELLS, PLANE_ROWS};

/// Drawings and their planes.
pub const DRAWINGS: [(&str, &str); 15] = [
    // the annotation walk goes over ╪ and ╫
    (
        "
┌───┬───╥───┬───╥───┐
│ U │ a ║ b │ c ║ d │
╞═══╪═══╬═══╪═══╬═══╡
│ 1 │ x ║ y │ z ║ n │
└───┴───╨───┴───╨───┘",
        "plane 3\n7 0 8 1 16 24 2 32\n7 3 3 5 3 3 6 3\n7 40 48 1 56 64 2 72\n",
    ),
    (
        "
┌───╥───┬───┐
│ a ║ x │ y │
╞═══╬═══╪═══╡
│ b ║ p │ q │
├───╫───┼───┤
│ c ║ r │ t │
╞═══╬═══╪═══╡
│ n ║ s │ u │
├───╫───┼───┤
│ U ║ 1 │ 2 │
└───╨───┴───┘",
        "plane 7\n4 0 1 8 16\n4 3 5 3 3\n4 24 1 32 40\n4 48 1 56 64\n4 4 7 4 4\n4 72 1 80 88
4 96 1 104 112\n",
    ),
    // it stops at ╤, ╧, ╟ and ╢, and the walk of the body does not
    (
        "
┌───┬───╥───────╥───┐
│ U │ a ║   b   ║ d │
╞═══╪═══╬═══╤═══╬═══╡
│ 1 │ x ║ y │ z ║ n │
└───┴───╨───┴───╨───┘",
        "plane 3\n6 0 8 1 16 16 24\n6 3 3 5 3 3 3\n6 32 40 1 48 56 64\n",
    ),
    (
        "
┌───┬───╥───┬───╥───┐
│ U │ a ║ b │ c ║ d │
╞═══╪═══╬═══╧═══╬═══╡
│ 1 │ x ║   y   ║ n │
└───┴───╨───────╨───┘",
        "plane 3\n6 0 8 1 16 24 32\n6 3 3 5 3 3 3\n6 40 48 1 56 56 64\n",
    ),
    (
        "
┌───╥───┬───┐
│ a ║ x │ y │
╞═══╬═══╪═══╡
│ b ║ p │ q │
│   ╟───┼───┤
│   ║ r │ t │
╞═══╬═══╪═══╡
│ n ║ s │ u │
├───╫───┼───┤
│ U ║ 1 │ 2 │
└───╨───┴───┘",
        "plane 6\n4 0 1 8 16\n4 3 5 3 3\n4 24 1 32 40\n4 24 1 48 56\n4 64 1 72 80\n4 88 1 96 104\n",
    ),
    (
        "
┌───╥───────┐
│ a ║ x     │
╞═══╬═══════╡
│ b ║ p     │
├───╢       │
│ c ║       │
╞═══╬═══╤═══╡
│ n ║ s │ u │
├───╫───┼───┤
│ U ║ 1 │ 2 │
└───╨───┴───┘",
        "plane 6\n4 0 1 8 8\n4 3 5 3 3\n4 16 1 24 24\n4 32 1 24 24\n4 40 1 48 56\n4 64 1 72 80\n",
    ),
    // joined boxes under a name
    (
        "
┌─────────────────┐
│ Fares           │
├───┬───┬───╥─────┴─┬───┐
│   │ a │ b ║ out   │ m │
│   ├───┼───╫───┬───┼───┤
│ U │   │ c ║ d │ e │ f │
╞═══╪═══╧═══╬═══╪═══╧═══╡
│ 1 │ x     ║ y │       │
├───┤       ╟───┤ z     │
│ 2 │       ║ y │       │
└───┴───────╨───┴───────┘",
        "plane 5\n7 8 16 24 1 32 32 40\n7 8 48 56 1 64 72 80\n7 3 3 3 5 3 3 3
7 88 96 96 1 104 112 112\n7 120 96 96 1 128 112 112\n",
    ),
    // uneven planes: short on the right, with a gap, and with a gap before each of the crossings
    (
        "
┌───╥───┐
│ U ║ a │
╞═══╬═══╪═══╡
│ 1 ║ x │ y │
└───╨───┴───┘",
        "plane 3\n3 0 1 8\n3 3 5 3\n4 16 1 24 32\n",
    ),
    (
        "
┌───╥───┐   ┌───┐
│ U ║ a │ b │ c │
╞═══╬═══╪═══╪═══╡
│ 1 ║ x │ y │ z │
└───╨───┴───┴───┘",
        "plane 3\n4 0 1 8 16\n4 3 5 3 3\n5 24 1 32 40 48\n",
    ),
    (
        "
┌───┐ a ╥───┐
│ U │   ║ b │
╞═══╪═══╬═══╡
│ 1 │ x ║ y │
└───┴───╨───┘",
        "plane 3\n3 0 1 8\n3 3 5 3\n4 16 24 1 32\n",
    ),
    (
        "
┌───╥───┐ b ╥───┐
│ U ║ a │   ║ n │
╞═══╬═══╪═══╬═══╡
│ 1 ║ x │ y ║ z │
└───╨───┴───╨───┘",
        "plane 3\n5 0 1 8 2 16\n5 3 5 3 6 3\n6 24 1 32 40 2 48\n",
    ),
    // ─ becomes ┬ at the end of the top row
    (
        "
┌───╥───┐   ─
│ U ║ a │ b │
╞═══╬═══╪═══╡
│ 1 ║ x │ y │
└───╨───┴───┘",
        "refused 3 9532 0\n",
    ),
    // typed lines: a frame that does not close, and ones that no region contains
    (
        "
┌───╥───────┐
│ U ║ a   b │
╞═══╬═══════╡
│ 1 ║ x │ y │
│   ║ ─   │ │
└───╨───────┘",
        "refused 4 32 0\n",
    ),
    (
        "
┌───╥───┐
│ U ║ a │ ─ │
╞═══╬═══╪═══╡
│ 1 ║ x │ y │
└───╨───┴───┘",
        "refused 6 8 1\n",
    ),
    (
        "
┌───┐─╥───┐
│ U │ ║ b │
╞═══╪╤╬═══╡
│ 1 ││║ y │
└───┴┴╨───┘",
        "refused 6 5 0\n",
    ),
];

/// A drawing of narrow boxes, so many in a row: its plane has a cell more in a row.
fn wide(boxes: usize, top_ends: &str) -> String {
    let more = |c: &str| c.repeat(boxes - 2);
    let top = boxes - 1 - top_ends.chars().count();
    let sides = format!("│║{}│", more("│"));
    let mut rows = vec![format!("┌╥{}{top_ends}", "┬".repeat(top)), sides.clone()];
    rows.extend([format!("╞╬{}╡", more("╪")), sides, format!("└╨{}┘", more("┴"))]);
    rows.join("\n")
}

/// A drawing of low boxes: so many rows of them before the crossing and behind it.
fn tall(before: usize, behind: usize) -> String {
    let rows = |count: usize| "├╫┤\n".repeat(count - 1);
    format!("┌╥┐\n{}╞╬╡\n{}└╨┘", rows(before), rows(behind))
}

/// Drawings at the limits of the plane or one over, and the first lines of their planes. A frame is
/// walked and its region found before the limit is tested.
pub fn at_limits() -> Vec<(String, &'static str)> {
    let (rows, cells) = (PLANE_ROWS, PLANE_CELLS);
    vec![
        (wide(cells - 1, "┐"), "plane 3"),
        (wide(cells, "┐"), "refused 7 0 0"),
        (wide(cells, "┐─"), "refused 3 9532 0"),
        (wide(cells + 1, "┐─┐"), "refused 6 64 0"),
        (tall(2, rows - 3), "plane 64"),
        (tall(2, rows - 2), "refused 7 0 0"),
        (tall(rows, 1), "refused 7 0 0"),
    ]
}

/// All these drawings.
pub fn drawings() -> Vec<String> {
    let by_hand = DRAWINGS.iter().map(|(text, _)| text.trim_start().to_string());
    by_hand.chain(at_limits().into_iter().map(|(text, _)| text)).collect()
}
