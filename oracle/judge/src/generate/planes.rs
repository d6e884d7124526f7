//! Lent planes: from tables that are nearly right, at random, and over the limits.

use super::grid::Grid;
use super::random::Random;
use super::shape::{FLAWS, Flaw, Shape};
use super::texts;
use crate::lent::Lent;
use crate::limits::{PLANE_CELLS, PLANE_ROWS, REGIONS, TEXT_BYTES};
use crate::packed::pack;

const TEXTS: [&str; 28] = [
    "U",
    "C+",
    "C<",
    "c",
    "1",
    "2",
    "3",
    "4",
    "+1",
    "01",
    "+002",
    "x",
    "5",
    "",
    " ",
    "0",
    "-1",
    "18446744073709551616",
    "18446744073709551615",
    "*a*, b",
    "`Yes`, No",
    "*",
    "***",
    " 1\u{A0}",
    "\tU\n",
    "Köln",
    "高",
    "🚌, **🚌**",
];

/// A cell: its kind and its region.
pub type Cell = (u64, u64);

/// A plane before it is lent.
pub struct Made {
    pub rows: Vec<Vec<Cell>>,
    pub texts: Vec<String>,
}

/// A lent plane.
pub fn plane(random: &mut Random) -> Lent {
    if random.once_in(500) {
        return at_limits(random);
    }
    let mut made = if random.chance(85) { near(random) } else { anything(random) };
    for _ in 0..random.pick(&[0, 0, 1, 1, 1, 2, 3]) {
        change(random, &mut made);
    }
    let mut lent = lend(random, &made);
    if random.chance(7) {
        spoil(random, &mut lent);
    }
    lent
}

/// A shape that is nearly right.
fn shape(random: &mut Random) -> Shape {
    let inputs = random.pick(&[0, 1, 1, 2, 2, 3]);
    let outputs = random.pick(&[0, 1, 1, 1, 2, 2, 3, 4]);
    Shape {
        by_rows: random.chance(50),
        inputs,
        outputs: if inputs == 0 { outputs.max(1) } else { outputs },
        annotations: random.pick(&[0, 0, 0, 1, 1, 2]),
        clause_rows: random.pick(&[1, 1, 1, 2, 2, 2, 2, 3, 3, 4]),
        rules: random.pick(&[1, 1, 2, 2, 3, 4]),
    }
}

/// The plane of a table that is nearly right.
fn near(random: &mut Random) -> Made {
    let shape = shape(random);
    let flaw = if random.chance(80) { Flaw::None } else { random.pick(&FLAWS) };
    made(random, shape, flaw)
}

/// The plane of a table of a shape, with a flaw or none.
pub fn made(random: &mut Random, shape: Shape, flaw: Flaw) -> Made {
    let upright = shape.upright(random, flaw);
    let grid = shape.whole(random, flaw, upright);
    let (double_rows, double_columns) = shape.double_lines(flaw);
    let rows = cells(&grid, &double_rows, &double_columns);
    let texts = grid.texts.iter().map(|lines| lines.join(" ")).collect();
    Made { rows, texts }
}

/// The cells of a grid: rows for the double lines between rows, cells for those between columns.
fn cells(grid: &Grid, double_rows: &[usize], double_columns: &[usize]) -> Vec<Vec<Cell>> {
    let mut rows = vec![];
    for y in 0..=grid.rows() {
        if let Some(line) = double_rows.iter().position(|row| *row == y) {
            rows.push(line_row(grid.columns(), line, double_columns));
        }
        if y < grid.rows() {
            rows.push(region_row(grid, y, double_columns));
        }
    }
    rows
}

/// The row of a double line: kinds 3, 5 and 6, or 4 and 7.
fn line_row(columns: usize, line: usize, double_columns: &[usize]) -> Vec<Cell> {
    let mut row = vec![];
    for x in 0..=columns {
        match (line, double_columns.iter().position(|column| *column == x)) {
            (_, None) => {}
            (0, Some(crossing)) => row.push((5 + crossing as u64, 0)),
            (_, Some(0)) => row.push((7, 0)),
            (_, Some(_)) => row.push((4, 0)),
        }
        if x < columns {
            row.push(if line == 0 { (3, 0) } else { (4, 0) });
        }
    }
    row
}

/// A row of regions, with kinds 1 and 2 for the double lines.
fn region_row(grid: &Grid, y: usize, double_columns: &[usize]) -> Vec<Cell> {
    let mut row = vec![];
    for x in 0..=grid.columns() {
        if let Some(line) = double_columns.iter().position(|column| *column == x) {
            row.push((1 + line as u64, 0));
        }
        if x < grid.columns() {
            row.push((0, grid.boxes[y][x] as u64));
        }
    }
    row
}

/// Any small plane.
fn anything(random: &mut Random) -> Made {
    let texts: Vec<String> = (0..random.between(1, 8)).map(|_| random.text(&TEXTS)).collect();
    let width = random.below(6);
    let even = random.chance(50);
    let mut rows = vec![];
    for _ in 0..random.below(7) {
        let width = if even { width } else { random.below(6) };
        rows.push((0..width).map(|_| any_cell(random, texts.len())).collect());
    }
    Made { rows, texts }
}

fn any_cell(random: &mut Random, regions: usize) -> Cell {
    let kind = random.pick(&[0, 0, 0, 0, 1, 1, 2, 3, 3, 3, 4, 5, 5, 6, 7]);
    (kind, random.below(regions) as u64)
}

/// The place of a cell, if there is one.
fn place(random: &mut Random, made: &Made) -> Option<(usize, usize)> {
    let rows: Vec<usize> = (0..made.rows.len()).filter(|y| !made.rows[*y].is_empty()).collect();
    if rows.is_empty() {
        return None;
    }
    let y = random.pick(&rows);
    Some((random.below(made.rows[y].len()), y))
}

/// One change of a plane.
pub fn change(random: &mut Random, made: &mut Made) {
    let Some((x, y)) = place(random, made) else {
        made.rows.push(vec![]);
        return;
    };
    let cell = any_cell(random, made.texts.len());
    match random.below(20) {
        0..=2 => made.rows[y][x] = cell,
        3 | 4 => made.rows[y][x] = (0, cell.1),
        5 | 6 => {
            let region = random.below(made.texts.len());
            made.texts[region] = random.text(&TEXTS);
        }
        7 => {
            made.rows[y].remove(x);
        }
        8 => {
            made.rows[y].pop();
        }
        9 => made.rows[y].truncate(x),
        10 => made.rows[y].insert(x, cell),
        11 => made.rows[y].push(cell),
        12 => made.rows[y].clear(),
        13 => made.rows.insert(y, vec![]),
        14 => {
            made.rows.remove(y);
        }
        15 => made.rows.insert(y, made.rows[y].clone()),
        16 => {
            let other = random.below(made.rows.len());
            made.rows.swap(y, other);
        }
        17 => move_crossing(random, made),
        18 => remove_column(made, x),
        _ => change_row_zero(random, made),
    }
}

/// Puts an annotation crossing, or the main one, elsewhere.
fn move_crossing(random: &mut Random, made: &mut Made) {
    let kind = random.pick(&[5, 6, 6, 7]);
    let old = made.rows.iter().flatten().position(|cell| cell.0 == kind);
    if let Some(old) = old
        && random.chance(60)
        && let Some(cell) = made.rows.iter_mut().flatten().nth(old)
    {
        cell.0 = 3;
    }
    if let Some((x, y)) = place(random, made) {
        made.rows[y][x] = (kind, 0);
    }
}

fn remove_column(made: &mut Made, x: usize) {
    for row in made.rows.iter_mut().filter(|row| row.len() > x) {
        row.remove(x);
    }
}

/// Row 0 tells the width of the sheet: makes it longer or shorter.
fn change_row_zero(random: &mut Random, made: &mut Made) {
    let length = random.below(made.rows[0].len() + 3);
    let cell = any_cell(random, made.texts.len());
    made.rows[0].resize(length, cell);
}

/// Lends a plane: the texts one after another, equal ones now and then in one part.
pub fn lend(random: &mut Random, made: &Made) -> Lent {
    let mut lent = Lent {
        row_lengths: made.rows.iter().map(|row| row.len() as u64).collect(),
        kinds: made.rows.iter().flatten().map(|cell| cell.0).collect(),
        regions: made.rows.iter().flatten().map(|cell| cell.1).collect(),
        ..Lent::default()
    };
    for text in &made.texts {
        let shared = random.chance(30).then(|| find(&lent.bytes, text.as_bytes())).flatten();
        let offset = shared.unwrap_or(lent.bytes.len());
        if shared.is_none() {
            lent.bytes.extend_from_slice(text.as_bytes());
        }
        lent.offsets.push(offset as u64);
        lent.lengths.push(text.len() as u64);
    }
    lent
}

/// The first place of a text in the bytes.
fn find(bytes: &[u8], text: &[u8]) -> Option<usize> {
    (0..(bytes.len() + 1).saturating_sub(text.len())).find(|at| bytes[*at..].starts_with(text))
}

/// One fault of number 26, or something that is none though it looks like one.
fn spoil(random: &mut Random, lent: &mut Lent) {
    let large = random.pick(&[8, 9, 64, 255, 1024, 65_535, 4_294_967_295]);
    let cell = random.below(lent.kinds.len().max(1));
    let region = random.below(lent.offsets.len().max(1));
    let bytes = lent.bytes.len() as u64;
    match random.below(16) {
        0 => {
            lent.kinds.pop();
        }
        1 => lent.kinds.push(0),
        2 => {
            lent.regions.pop();
        }
        3 => lent.regions.push(0),
        4 => lent.row_lengths.push(random.pick(&[0, 0, 1])),
        5 => {
            lent.offsets.pop();
        }
        6 => lent.lengths.push(0),
        7 => set(&mut lent.kinds, cell, large),
        8 => set(&mut lent.regions, cell, large),
        9 => set(&mut lent.regions, cell, lent.offsets.len() as u64),
        10 => set(&mut lent.offsets, region, random.pick(&[bytes, bytes + 1, large])),
        11 => set(&mut lent.lengths, region, random.pick(&[0, bytes + 1, large])),
        12 => {
            // a part of no region, used or not
            lent.offsets.push(bytes);
            lent.lengths.push(random.pick(&[0, 0, 1]));
        }
        13 => {
            let place = random.below(lent.bytes.len().max(1));
            let byte = random.pick(&[0x80, 0xC3, 0xFF, 0x41]);
            if let Some(old) = lent.bytes.get_mut(place) {
                *old = byte;
            }
        }
        14 => {
            // a part may start or end in the middle of a character
            set(&mut lent.offsets, region, random.below(lent.bytes.len() + 1) as u64);
            set(&mut lent.lengths, region, random.below(4) as u64);
        }
        _ => {
            if let Some(length) = lent.row_lengths.first_mut() {
                *length = large;
            }
        }
    }
}

fn set(list: &mut [u64], place: usize, value: u64) {
    if let Some(old) = list.get_mut(place) {
        *old = value;
    }
}

/// A plane at one of the limits, or one over it.
pub fn at_limits(random: &mut Random) -> Lent {
    let more = random.below(2);
    let limit = random.below(LIMITS);
    at_limit(random, limit, more)
}

/// The limits of a plane: rows, cells in a row, regions, bytes.
pub const LIMITS: usize = 4;

/// A plane at a limit, or so many over it.
pub fn at_limit(random: &mut Random, limit: usize, more: usize) -> Lent {
    let rows = if limit == 0 { PLANE_ROWS + more } else { random.between(4, PLANE_ROWS) };
    let cells = if limit == 1 { PLANE_CELLS + more } else { random.between(4, PLANE_CELLS) };
    let regions = if limit == 2 { REGIONS + more } else { random.between(PLANE_ROWS + 2, REGIONS) };
    let bytes = if limit == 3 { TEXT_BYTES + more } else { random.between(200, 3_000) };
    let mut made = large(random, rows, cells, regions, bytes);
    if random.chance(50) {
        turn(&mut made);
    }
    lend_plainly(&made)
}

/// A lent plane that fits the bytes of a line.
pub fn narrow(random: &mut Random) -> Lent {
    if random.once_in(200) {
        return narrow_at_limits(random);
    }
    loop {
        let lent = plane(random);
        if pack(&lent).is_some_and(|bytes| bytes.len() <= TEXT_BYTES) {
            return lent;
        }
    }
}

/// A plane at a limit of rows, cells or regions or one over it, that fits the bytes of a line.
fn narrow_at_limits(random: &mut Random) -> Lent {
    let more = random.below(2);
    let (rows, cells) = match random.below(4) {
        0 => (PLANE_ROWS, PLANE_CELLS),
        1 => (PLANE_ROWS + more, random.between(4, PLANE_CELLS)),
        2 => (random.between(4, PLANE_ROWS), PLANE_CELLS + more),
        _ => (random.between(4, 8), random.between(4, 8)),
    };
    let is_turned = random.chance(50);
    let mut lent = narrow_of(random, rows, cells, is_turned);
    if random.chance(25) {
        lent.offsets.resize(REGIONS + more, 0);
        lent.lengths.resize(REGIONS + more, 0);
    }
    lent
}

/// A row plane of a size, or that plane turned, whose numbers are all at most 255.
pub fn narrow_of(random: &mut Random, rows: usize, cells: usize, is_turned: bool) -> Lent {
    let (regions, bytes) = (random.between(rows + 2, 100), random.between(150, 255));
    let mut made = large(random, rows, cells, regions, bytes);
    if is_turned {
        turn(&mut made);
    }
    lend_plainly(&made)
}

/// A row plane of a size. Its rule numbers are the first regions, its hit policy region 0.
fn large(random: &mut Random, rows: usize, cells: usize, regions: usize, bytes: usize) -> Made {
    let double = random.between(1, cells - 2);
    let mut made = Made { rows: vec![], texts: vec![] };
    for y in 0..rows {
        let row = (0..cells).map(|x| match (x == double, y) {
            (true, 1) => (5, 0),
            (false, 1) => (3, 0),
            (true, _) => (1, 0),
            (false, 0) if x == 0 => (0, 0),
            (false, _) if x == 0 => (0, y as u64 - 1),
            (false, _) => (0, random.between(rows, regions - 1) as u64),
        });
        made.rows.push(row.collect());
    }
    made.texts.push(random.text(&texts::POLICIES));
    made.texts.extend((1..rows).map(|rule| rule.to_string()));
    let used: usize = made.texts.iter().map(String::len).sum();
    made.texts.extend(shares(regions - rows, bytes.saturating_sub(used)));
    made.texts.truncate(regions);
    made
}

/// Turns an even row plane to a column plane: its first row becomes its last.
fn turn(made: &mut Made) {
    let turned = |cell: &Cell| match cell.0 {
        1 => (3, cell.1),
        3 => (1, cell.1),
        _ => *cell,
    };
    let column = |x: usize| made.rows.iter().map(|row| turned(&row[x])).collect();
    made.rows = (0..made.rows[0].len()).map(column).collect();
    made.rows.rotate_left(1);
}

/// So many texts that together have so many bytes.
fn shares(count: usize, bytes: usize) -> Vec<String> {
    let count = count.max(1);
    let share = |index: usize| bytes / count + usize::from(index < bytes % count);
    (0..count).map(|index| "z".repeat(share(index))).collect()
}

/// Lends a plane with all its texts one after another.
fn lend_plainly(made: &Made) -> Lent {
    let mut offset = 0;
    let mut lent = Lent {
        row_lengths: made.rows.iter().map(|row| row.len() as u64).collect(),
        kinds: made.rows.iter().flatten().map(|cell| cell.0).collect(),
        regions: made.rows.iter().flatten().map(|cell| cell.1).collect(),
        bytes: made.texts.concat().into_bytes(),
        ..Lent::default()
    };
    for text in &made.texts {
        lent.offsets.push(offset);
        lent.lengths.push(text.len() as u64);
        offset += text.len() as u64;
    }
    lent
}
