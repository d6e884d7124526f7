//! Sheets at the limits of document 01, or one over them.

use super::around;
use super::draw::{Drawing, Picture, text};
use super::grid::{Grid, Places};
use super::random::Random;
use super::shape::{Flaw, Shape};
use super::sheets;
use super::texts;
use crate::canvas;
use crate::limits::{
    CANVAS_COLUMNS, CANVAS_ROWS, PLANE_CELLS, PLANE_ROWS, RECORD_BYTES, REGIONS, TEXT_BYTES,
};
use crate::outcome::Outcome;
use crate::sheet::judge_sheet;

/// A letter that is made heavier until a sum is as wanted, and one for the last few bytes.
const LETTER: char = 'j';
const LAST_LETTER: char = 'f';

/// Letters of two, three and four bytes.
const HEAVIER: [char; 3] = ['é', '高', '𝄞'];

/// A limit that a sheet may meet.
#[derive(Debug, Clone, Copy, PartialEq, Eq)]
pub enum Edge {
    Rows,
    Columns,
    PlaneRows,
    PlaneCells,
    Regions,
    TextBytes,
    RecordBytes,
}

pub const EDGES: [Edge; 7] = [
    Edge::Rows,
    Edge::Columns,
    Edge::PlaneRows,
    Edge::PlaneCells,
    Edge::Regions,
    Edge::TextBytes,
    Edge::RecordBytes,
];

/// A sheet that reaches a limit or exceeds it.
pub fn sheet(random: &mut Random, over: bool) -> Vec<u8> {
    let edge = random.pick(&EDGES);
    let picture = picture(random, edge, over);
    around::bytes(random, picture)
}

/// The picture of a sheet that reaches a limit or exceeds it by one.
pub fn picture(random: &mut Random, edge: Edge, over: bool) -> Picture {
    let more = usize::from(over);
    match edge {
        Edge::Rows => rows(random, CANVAS_ROWS + more),
        Edge::Columns => columns(random, CANVAS_COLUMNS + more),
        Edge::PlaneRows => plane_rows(random, PLANE_ROWS + more),
        Edge::PlaneCells => plane_cells(random, PLANE_CELLS + more),
        Edge::Regions => regions(random, over),
        Edge::TextBytes => text_bytes(random, TEXT_BYTES + more),
        Edge::RecordBytes => record_bytes(random, RECORD_BYTES + more),
    }
}

/// A canvas of so many rows.
fn rows(random: &mut Random, rows: usize) -> Picture {
    let mut drawing = sheets::drawing(random, Flaw::None);
    let row = random.below(drawing.heights.len());
    drawing.heights[row] += rows.saturating_sub(drawing.height());
    drawing.picture(random)
}

/// A canvas of so many columns.
fn columns(random: &mut Random, columns: usize) -> Picture {
    let mut drawing = sheets::drawing(random, Flaw::None);
    let column = random.below(drawing.widths.len());
    drawing.widths[column] += columns.saturating_sub(drawing.width());
    drawing.picture(random)
}

/// A drawing in which few boxes have a text.
fn sparse(random: &mut Random, shape: Shape, least: (usize, usize)) -> Drawing {
    let mut grid = Grid::new(shape.columns(), shape.rows());
    for _ in 0..6 {
        let (x, y) = (random.below(shape.columns()), random.below(shape.rows()));
        let text = random.text(&["a", "é", "高", "🚌", "-"]);
        grid.write(x, y, vec![text]);
    }
    let whole = shape.whole(random, Flaw::None, grid);
    let (double_rows, double_columns) = shape.double_lines(Flaw::None);
    Drawing::fitted(random, whole, double_rows, double_columns, least)
}

/// A column sheet of so many plane rows; the double line and the rule numbers have one each.
fn plane_rows(random: &mut Random, rows: usize) -> Picture {
    let inputs = random.between(1, 50);
    let outputs = rows - 2 - inputs;
    let shape = Shape { by_rows: false, inputs, outputs, annotations: 0, clause_rows: 1, rules: 2 };
    sparse(random, shape, (3, 0)).picture(random)
}

/// A row sheet of so many cells in a row; the double line and the rule numbers have one each.
fn plane_cells(random: &mut Random, cells: usize) -> Picture {
    let inputs = random.between(0, 50);
    let outputs = cells - 2 - inputs;
    let shape = Shape { by_rows: true, inputs, outputs, annotations: 0, clause_rows: 1, rules: 2 };
    let least = (random.pick(&[0, 1]), 1);
    sparse(random, shape, least).picture(random)
}

/// As many regions as there may be, and perhaps a box on the left.
fn regions(random: &mut Random, over: bool) -> Picture {
    let rows = 32;
    let columns = REGIONS / rows - 1;
    let inputs = random.between(0, 20);
    let outputs = columns - inputs;
    let rules = rows - 1;
    let shape = Shape { by_rows: true, inputs, outputs, annotations: 0, clause_rows: 1, rules };
    let picture = sparse(random, shape, (2, 1)).picture(random);
    if over { around::with_left_note(random, picture) } else { picture }
}

/// Two by two boxes and one entry with letters that can be made heavier.
fn plain(random: &mut Random, last_letters: usize) -> Drawing {
    let shape =
        Shape { by_rows: true, inputs: 1, outputs: 1, annotations: 0, clause_rows: 1, rules: 1 };
    let mut grid = Grid::new(2, 2);
    grid.write(0, 1, vec![String::from(LAST_LETTER).repeat(last_letters)]);
    let whole = shape.whole(random, Flaw::None, grid);
    Drawing::fitted(random, whole, vec![1], vec![2], (3, 1))
}

/// A name box with boxes in it, so that their text counts several times.
fn text_bytes(random: &mut Random, bytes: usize) -> Picture {
    let body = plain(random, 100).picture(random);
    let width = body[0].len();
    let levels = random.between(3, 5);
    let mut inner = vec![vec![LETTER; width - 2 * levels]; 70];
    for _ in 0..levels {
        inner = boxed(inner);
    }
    // the name box ends where the body starts
    inner.pop();
    let mut picture = inner;
    let mut body = body;
    body[0][0] = '├';
    body[0][width - 1] = '┤';
    picture.extend(body);
    tuned(picture, bytes, texts_of)
}

/// A picture with a box around it.
fn boxed(picture: Picture) -> Picture {
    let line = |left: char, right: char| {
        let mut row = vec!['─'; picture[0].len() + 2];
        row[0] = left;
        row[picture[0].len() + 1] = right;
        row
    };
    let mut out = vec![line('┌', '┐')];
    for row in &picture {
        out.push([&['│'], row.as_slice(), &['│']].concat());
    }
    out.push(line('└', '┘'));
    out
}

/// The bytes of all region texts, or more than wanted if they are too many.
fn texts_of(picture: &Picture) -> usize {
    match canvas::plane(picture) {
        Ok(plane) => plane.texts.iter().map(String::len).sum(),
        Err(_) => usize::MAX,
    }
}

/// A joined box whose text is in many slots of the record.
fn record_bytes(random: &mut Random, bytes: usize) -> Picture {
    let rules = random.between(2, 10);
    let slots = 2 * rules;
    let shape =
        Shape { by_rows: true, inputs: 2, outputs: 1, annotations: 0, clause_rows: 1, rules };
    let mut grid = Grid::new(3, 1 + rules);
    grid.join(Places::new(0, 1, 2, 1 + rules));
    let stop = texts::stop(random);
    grid.write(2, 0, vec![stop]);
    grid.write(2, 1, vec![String::from(LAST_LETTER).repeat(40)]);
    // half of the bytes if all letters have one byte, twice as many if all have four
    let line = 80;
    let lines = (bytes / 2 / (slots * line)).clamp(3, 60);
    grid.write(0, 1, vec![String::from(LETTER).repeat(line); lines]);
    let whole = shape.whole(random, Flaw::None, grid);
    let drawing = Drawing::fitted(random, whole, vec![1], vec![3], (3, 1));
    tuned(drawing.picture(random), bytes, record_of)
}

/// The bytes of the record, or more than wanted if there is none.
fn record_of(picture: &Picture) -> usize {
    match judge_sheet(text(picture).as_bytes(), usize::MAX) {
        Ok(Outcome::Record(bytes)) => bytes.len(),
        _ => usize::MAX,
    }
}

/// Makes letters heavier until a sum is exactly as wanted, or leaves the picture as it is.
fn tuned(picture: Picture, wanted: usize, sum: impl Fn(&Picture) -> usize) -> Picture {
    let mut picture = picture;
    let start = sum(&picture);
    if start >= wanted {
        return picture;
    }
    replace(&mut picture, LETTER, HEAVIER[2], 1);
    let each = sum(&picture).saturating_sub(start);
    if each == 0 {
        return picture;
    }
    let count = (wanted - start) / each;
    replace(&mut picture, LETTER, HEAVIER[2], count.saturating_sub(1));
    let mut left = wanted.saturating_sub(sum(&picture));
    while left > 0 {
        let more = left.min(HEAVIER.len());
        if replace(&mut picture, LAST_LETTER, HEAVIER[more - 1], 1) == 0 {
            break;
        }
        left -= more;
    }
    picture
}

/// Replaces the first so many of a letter; tells how many there were.
fn replace(picture: &mut Picture, old: char, new: char, count: usize) -> usize {
    let letters = picture.iter_mut().flatten().filter(|c| **c == old).take(count);
    letters.map(|c| *c = new).count()
}
