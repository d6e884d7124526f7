//! Lent planes made by hand, with the first lines of their answers.

use super::planes::narrow_of;
use super::random::Random;
use crate::lent::Lent;
use crate::limits::{PLANE_CELLS, PLANE_ROWS, REGIONS};

/// The words of the kinds 1 to 7; others are texts, in which `·` is left out and `~` is a blank.
const LINES: [&str; 7] = ["║", "│", "═", "─", "╬", "╪", "╫"];

/// The fare sheet of document 01.
const FARE: [&str; 3] = ["U Zone ║ Fare", "═ ═ ╬ ═", "1 \"A\" ║ 120"];

/// A change of a plane.
type Change = fn(&mut Lent);

/// Changes of the fare sheet's plane that make it number 26, each by one cause.
pub const FAULTS: [(&str, Change); 14] = [
    ("65 rows", |lent| lent.row_lengths.resize(PLANE_ROWS + 1, 0)),
    ("a row of 65 cells", |lent| {
        lent.row_lengths.push(PLANE_CELLS as u64 + 1);
        lent.kinds.resize(12 + PLANE_CELLS + 1, 3);
        lent.regions.resize(12 + PLANE_CELLS + 1, 0);
    }),
    ("1,025 regions", |lent| {
        lent.offsets.resize(REGIONS + 1, 0);
        lent.lengths.resize(REGIONS + 1, 0);
    }),
    ("a kind too many", |lent| lent.kinds.push(3)),
    ("a region number too many", |lent| lent.regions.push(0)),
    ("a row too short", |lent| lent.row_lengths[0] = 3),
    ("an offset too many", |lent| lent.offsets.push(0)),
    ("a length too many", |lent| lent.lengths.push(0)),
    ("an unknown kind", |lent| lent.kinds[4] = 8),
    ("an unknown region", |lent| lent.regions[0] = lent.offsets.len() as u64),
    ("a part that starts too late", |lent| lent.offsets[5] += 1),
    ("a part that is too long", |lent| lent.lengths[0] = 255),
    ("a part that ends within a character", |lent| {
        lent.bytes.extend("é".as_bytes());
        lent.offsets[5] = lent.bytes.len() as u64 - 2;
        lent.lengths[5] = 1;
    }),
    ("a part behind the bytes, of no text and of a region that no cell uses", |lent| {
        lent.offsets.push(lent.bytes.len() as u64 + 1);
        lent.lengths.push(0);
    }),
];

/// Changes of the fare sheet's plane that do not show in its answer.
pub const CHANGES: [(&str, Change); 4] = [
    ("1,024 regions", |lent| {
        lent.offsets.resize(REGIONS, 0);
        lent.lengths.resize(REGIONS, 0);
    }),
    ("an empty part at the end of the bytes", |lent| {
        lent.offsets.push(lent.bytes.len() as u64);
        lent.lengths.push(0);
    }),
    ("an ill-formed byte in no part", |lent| lent.bytes.push(0xFF)),
    ("unknown regions of double lines", |lent| {
        for place in (0..lent.kinds.len()).filter(|place| lent.kinds[*place] > 0) {
            lent.regions[place] = 255;
        }
    }),
];

/// Planes by their rows, and the first lines of their answers. P1 to P6 are conditions of number 10.
pub const SHEETS: [(&[&str], &str); 34] = [
    (&FARE, "upright 0 0 1"),
    (&["~C<~ a ║ b │ n", "═ ═ ╬ ═ ╪ ═", "~1 x ║ y │ z", "+002 x ║ · │ z"], "upright 0 9 2"),
    (&["a ║ x y", "═ ╬ ═ ═", "b ║ p q", "U ║ 1 2"], "upright 1 0 2"),
    (&["a ║ x y", "═ ╬ ═ ═", "b ║ p q", "─ ╫ ─ ─", "n ║ s t", "O ║ 1 2"], "upright 1 5 2"),
    // uneven, the crossing not in the row of the double line
    (&["A a ╬ b", "═ ╪", "1", "2 x ║ y │ z"], "upright 0 1 2"),
    // uneven: rows longer than row 0 are cut in turning
    (&["a ║ x", "═ ╬ ═ ═", "b ║ p q r", "C# ║ 1 2"], "upright 1 8 2"),
    (&["═", "═", "1 ║", "P ║ 1"], "upright 1 2 1"),
    (&["U", "═", "1"], "upright 0 0 1"),
    (&[], "refused 8 0 0"),
    // P1
    (&["", "═ ═", "1 x"], "refused 10 0 0"),
    // P2
    (&["x a", "═ ═", ""], "refused 10 0 0"),
    // P3, at the end and at a row without cells
    (&["U a ║ b", "─ ─ ╬ ─", "1 x ║ y"], "refused 10 0 0"),
    (&["U a ║ b", "", "═ ═ ╬ ═", "1 x ║ y"], "refused 10 0 0"),
    // P4, and its row without cells behind a text and behind an 11
    (&["U a ║ b", "═ ═ ╬ ═", "", "1 x ║ y"], "refused 10 0 0"),
    (&["U a ║ b", "═ ═ ╬ ═", "x", "", "1 ║ y"], "refused 12 0 0"),
    (&["U a ║ b", "═ ═ ╬ ═", "2", "", "1 ║ y"], "refused 11 2 0"),
    // P5
    (&["a b", "═ ═", "U 1"], "refused 10 0 0"),
    // P6
    (&["a ║ x y", "═ ╬ ═", "b ║ p q", "U ║ 1 2"], "refused 10 0 0"),
    (&["U a ║ b", "═ ═ ╬ ═", "1 x ║ y", "3 x ║ y"], "refused 11 3 0"),
    (&["a ║ x y", "═ ╬ ═ ═", "U ║ 1 1"], "refused 11 1 0"),
    (&["a ║ 1", "═ ╬ ═", "5 ║ 2", "U ║ 1"], "refused 11 5 0"),
    (&["U ║", "═ ╬", "18446744073709551615 ║"], "refused 11 18446744073709551615 0"),
    (&["U ║", "═ ╬", "18446744073709551616 ║"], "refused 12 0 0"),
    (&["U a ║ b │ n", "═ ═ ╬ ═ ╪ ═", "x y ║ z │ t"], "refused 12 0 0"),
    (&["x a ║ b │ n", "═ ═ ╬ ═ ╪ ═", "1 y ║ z │ t"], "refused 13 0 0"),
    // with the annotation crossings of both sheets
    (&["x ╫ ╪", "═ ═", "1"], "refused 13 0 0"),
    (&["a ║ x", "═ ╬ ═", "b ║ p", "─ ╫ ─", "n ║ s", "U ║ x"], "refused 14 0 0"),
    (&["a ║ x", "═ ╬ ═", "b ║ p", "─ ╫ ─", "n ║ s", "x ║ 1"], "refused 15 0 0"),
    (&["U ║ x", "═ ╬ ═", "1 ║ p", "2 ╫ ─"], "refused 15 0 0"),
    (&["a ║ x", "═ ╬ ═", "U ║ x"], "refused 14 0 0"),
    (&["a ║ x", "═ ╬ ═", "U ║"], "refused 14 0 0"),
    (&["c a ║ b", "═ ═ ╬ ═", "1 x ║ y"], "refused 16 0 0"),
    (&["x a ║ b", "═ ═ ╬ ═", "y x ║ 1"], "refused 16 0 0"),
    (&["x a ║ b", "═ ═ ╬ ═", "y x ║ z"], "refused 17 0 0"),
];

/// The plane of rows of words; each text is a region.
pub fn lent(rows: &[&str]) -> Lent {
    let mut lent = Lent::default();
    let mut texts: Vec<&str> = vec![];
    for row in rows {
        let words: Vec<&str> = row.split_whitespace().collect();
        lent.row_lengths.push(words.len() as u64);
        for word in words {
            let line = LINES.iter().position(|line| *line == word);
            lent.kinds.push(line.map_or(0, |line| line as u64 + 1));
            if line.is_none() && !texts.contains(&word) {
                texts.push(word);
            }
            lent.regions.push(texts.iter().position(|text| *text == word).unwrap_or(0) as u64);
        }
    }
    for text in texts {
        let text = text.replace('·', "").replace('~', "\u{3000}");
        lent.offsets.push(lent.bytes.len() as u64);
        lent.lengths.push(text.len() as u64);
        lent.bytes.extend(text.as_bytes());
    }
    lent
}

/// The plane of the fare sheet with a change.
pub fn changed(change: Change) -> Lent {
    let mut fare = lent(&FARE);
    change(&mut fare);
    fare
}

/// Planes of 64 rows of 64 cells: a row sheet and a column sheet.
pub fn full(is_turned: bool) -> Lent {
    narrow_of(&mut Random::of(&[1]), PLANE_ROWS, PLANE_CELLS, is_turned)
}

/// All these planes.
pub fn planes() -> Vec<Lent> {
    let sheets = SHEETS.iter().map(|(rows, _)| lent(rows));
    let changes = FAULTS.iter().chain(&CHANGES).map(|(_, change)| changed(*change));
    sheets.chain(changes).chain([false, true].map(full)).collect()
}
