//! Good sheets: nearly all of them are taken by the Rust.

use super::around;
use super::draw::Drawing;
use super::edges;
use super::random::Random;
use super::shape::{Flaw, Shape};
use super::texts;
use crate::limits::{CANVAS_COLUMNS, CANVAS_ROWS};

/// How often a drawing is made again when it is too large.
const TRIES: usize = 8;

/// Room for a name and notes.
const MARGIN: usize = 12;

/// A random drawing that fits the canvas, if one is found.
pub fn drawing(random: &mut Random, flaw: Flaw) -> Drawing {
    let mut made = one_drawing(random, flaw);
    for _ in 1..TRIES {
        if made.width() + MARGIN <= CANVAS_COLUMNS && made.height() + MARGIN <= CANVAS_ROWS {
            break;
        }
        made = one_drawing(random, flaw);
    }
    made
}

fn one_drawing(random: &mut Random, flaw: Flaw) -> Drawing {
    let mut shape = Shape::random(random);
    if flaw == Flaw::Clauses {
        shape = shape.with_too_many_clause_rows(random);
    }
    shape.drawing(random, flaw)
}

/// A sheet with a flaw or none.
pub fn sheet(random: &mut Random, flaw: Flaw) -> Vec<u8> {
    let picture = drawing(random, flaw).picture(random);
    let picture = around::framed(random, picture);
    around::bytes(random, picture)
}

/// A good sheet; one in a hundred is as large as the limits allow.
pub fn good(random: &mut Random) -> Vec<u8> {
    if random.once_in(100) { edges::sheet(random, false) } else { sheet(random, Flaw::None) }
}

/// Lines of prose around a sheet: few, or so many that it has more than 61,440 bytes.
const LINES_AROUND: [usize; 4] = [3, 30, 300, 6_000];

/// A good sheet in prose; one in ten has ill-formed UTF-8 somewhere before or behind.
pub fn in_prose(random: &mut Random) -> Vec<u8> {
    let most = random.pick(&LINES_AROUND);
    let before = prose(random, most);
    let behind = prose(random, most);
    let mut bytes = [before, sheet(random, Flaw::None), b"\n".to_vec(), behind].concat();
    if random.once_in(10) {
        let place = random.below(bytes.len() + 1);
        bytes.insert(place, 0xFF);
    }
    bytes
}

/// At most so many lines of prose.
fn prose(random: &mut Random, most: usize) -> Vec<u8> {
    let lines: Vec<String> =
        (0..random.between(0, most)).map(|_| texts::prose(random) + "\n").collect();
    lines.concat().into_bytes()
}
