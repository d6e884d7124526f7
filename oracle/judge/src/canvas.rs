//! The judge's own canvas, for the limits of numbers 2 and 7: the rows of a sheet, the layers, the
//! regions with their texts, and the plane. It is used where `Canvas::scan` of the Rust succeeds,
//! and its plane is compared with the Rust's.

use crate::limits::{PLANE_CELLS, PLANE_ROWS, REGIONS, TEXT_BYTES};
use recognizer::rect::Rect;

/// A layer, or the rows of a sheet before they are filled.
pub type Layer = Vec<Vec<char>>;

const OUTER: char = '░';
const BLANK: char = ' ';
const TOP_LEFT: &[char] = &['┌', '├', '┬', '┼'];

/// The characters of a frame: its corners from the top right one on, clockwise, and its sides from
/// the top one on, clockwise.
struct Frame {
    corners: [&'static [char]; 4],
    sides: [&'static [char]; 4],
}

const CORNERS: [&[char]; 4] =
    [&['┐', '┤', '┬', '┼'], &['┘', '┤', '┴', '┼'], &['└', '├', '┴', '┼'], TOP_LEFT];

const THIN: Frame = Frame {
    corners: CORNERS,
    sides: [&['─', '┴'], &['│', '├'], &['─', '┬'], &['│', '┤']],
};

const GRID: Frame = Frame { corners: CORNERS, sides: [&['─'], &['│'], &['─'], &['│']] };

/// The four directions of the walk along the sides: right, down, left, up.
const DIRECTIONS: [(isize, isize); 4] = [(1, 0), (0, 1), (-1, 0), (0, -1)];

/// A cell of a plane: its kind in the order of `Cell`, and the region of kind 0.
#[derive(Debug, Clone, Copy, PartialEq, Eq)]
pub struct PlaneCell {
    pub kind: u64,
    pub region: usize,
}

/// A plane with the regions of its canvas and their texts.
#[derive(Debug, Default)]
pub struct Plane {
    pub rows: Vec<Vec<PlaneCell>>,
    pub regions: Vec<Rect>,
    pub texts: Vec<String>,
}

/// The regions of a canvas in row order, and the text of each.
pub type Regions = (Vec<Rect>, Vec<String>);

/// Why there is no plane.
#[derive(Debug, PartialEq, Eq)]
pub enum Stop {
    /// A walk fails or a region is missing: the Rust tells which.
    TheRust,
    /// Number 7, with the limit that is passed.
    OverLimits(&'static str),
}

/// The rows of a sheet: trimmed lines that are not blank, from the first that begins with ┌ up to
/// the first of them that ends with ┘.
pub fn collected(text: &str) -> Layer {
    let mut rows = vec![];
    let lines = text.lines().map(str::trim).filter(|line| !line.is_empty());
    for line in lines.skip_while(|line| !line.starts_with('┌')) {
        rows.push(line.chars().collect());
        if line.ends_with('┘') {
            break;
        }
    }
    rows
}

/// The longest row.
pub fn width(rows: &Layer) -> usize {
    rows.iter().map(Vec::len).max().unwrap_or(0)
}

/// Rows filled on the right, and the layer that starts as blanks with the same filling.
fn filled(rows: &Layer) -> (Layer, Layer) {
    let width = width(rows);
    let fill = |row: &Vec<char>| {
        let mut row = row.clone();
        row.resize(width, OUTER);
        row
    };
    let blank = |row: &Vec<char>| fill(&vec![BLANK; row.len()]);
    (rows.iter().map(fill).collect(), rows.iter().map(blank).collect())
}

/// From TEXT to THIN, by the character.
fn thin(c: char) -> char {
    match c {
        '┌' | '┐' | '└' | '┘' | '┬' | '┴' | '─' | '│' | '├' | '┼' | '┤' | BLANK | OUTER => {
            c
        }
        '╥' | '╤' => '┬',
        '║' => '│',
        '╨' | '╧' => '┴',
        '═' => '─',
        '╞' | '╟' => '├',
        '╡' | '╢' => '┤',
        '╫' | '╪' | '╬' => '┼',
        _ => BLANK,
    }
}

/// THIN: double lines as single ones.
fn thin_layer(text: &Layer) -> Layer {
    text.iter().map(|row| row.iter().map(|c| thin(*c)).collect()).collect()
}

/// From THIN to BODY, in the top row of the body.
fn top(c: char) -> char {
    match c {
        '├' => '┌',
        '┴' => '─',
        '┤' => '┐',
        '┼' => '┬',
        c => c,
    }
}

/// The first place of a character, row by row.
fn find(layer: &Layer, wanted: char) -> Option<(usize, usize)> {
    layer
        .iter()
        .enumerate()
        .find_map(|(y, row)| row.iter().position(|c| *c == wanted).map(|x| (x, y)))
}

/// The character at a place, if it is in the layer.
fn at(layer: &Layer, x: isize, y: isize) -> Option<char> {
    let row = layer.get(usize::try_from(y).ok()?)?;
    row.get(usize::try_from(x).ok()?).copied()
}

/// Walks over allowed characters to the first other one.
fn walk(
    layer: &Layer,
    start: (usize, usize),
    direction: (isize, isize),
    allowed: &[char],
) -> Option<(usize, usize, char)> {
    let (mut x, mut y) = (start.0 as isize, start.1 as isize);
    loop {
        (x, y) = (x + direction.0, y + direction.1);
        let c = at(layer, x, y)?;
        if !allowed.contains(&c) {
            return Some((x as usize, y as usize, c));
        }
    }
}

/// Walks to one of the wanted characters, over allowed ones.
fn walk_to(
    layer: &Layer,
    start: (usize, usize),
    direction: (isize, isize),
    wanted: &[char],
    allowed: &[char],
) -> Option<(usize, usize)> {
    let (x, y, c) = walk(layer, start, direction, allowed)?;
    wanted.contains(&c).then_some((x, y))
}

/// The frame that starts at a place; right and bottom are exclusive.
fn frame(layer: &Layer, start: (usize, usize), kind: &Frame) -> Option<Rect> {
    let mut place = start;
    let mut bottom_right = start;
    for (side, direction) in DIRECTIONS.into_iter().enumerate() {
        place = walk_to(layer, place, direction, kind.corners[side], kind.sides[side])?;
        if side == 1 {
            bottom_right = place;
        }
    }
    let rect = Rect::new(start.0, start.1, bottom_right.0 + 1, bottom_right.1 + 1);
    (place == start).then_some(rect)
}

/// The crossings and the body of a sheet that `Canvas::scan` takes.
struct Body {
    cross: (usize, usize),
    cross_horz: Option<usize>,
    cross_vert: Option<usize>,
    rect: Rect,
}

fn body(text: &Layer) -> Option<Body> {
    let cross = find(text, '╬')?;
    let [right, down, left, up] = DIRECTIONS;
    let horz = walk_to(text, cross, right, &['╬'], &['═', '╪']);
    let vert = walk_to(text, cross, down, &['╬'], &['║', '╫']);
    let top = walk_to(text, cross, up, &['╥'], &['║', '╫', '╟', '╢'])?;
    let bottom = walk_to(text, cross, down, &['╨'], &['║', '╫', '╟', '╢', '╬'])?;
    let start = walk_to(text, cross, left, &['╞'], &['═', '╪', '╧', '╤'])?;
    let end = walk_to(text, cross, right, &['╡'], &['═', '╪', '╧', '╤', '╬'])?;
    Some(Body {
        cross,
        cross_horz: horz.map(|place| place.0),
        cross_vert: vert.map(|place| place.1),
        rect: Rect::new(start.0, top.1, end.0 + 1, bottom.1 + 1),
    })
}

/// BODY: the body's part of THIN, the rows above it laid over with ░ except the lowest.
fn body_layer(thin: &Layer, blank: Layer, rect: &Rect) -> Layer {
    let mut layer = blank;
    for row in layer.iter_mut().take(rect.top.saturating_sub(1)) {
        row[rect.left..rect.right].fill(OUTER);
    }
    for y in rect.top..rect.bottom {
        for x in rect.left..rect.right {
            let c = thin[y][x];
            layer[y][x] = if y == rect.top { top(c) } else { c };
        }
    }
    layer
}

/// GRID: the rows holding ─ and then the columns holding │, carried across the body.
fn grid_layer(body: Layer, rect: &Rect) -> Layer {
    let mut layer = body;
    for row in &mut layer[rect.top..rect.bottom] {
        let part = &mut row[rect.left..rect.right];
        if part.contains(&'─') {
            for (x, c) in part.iter_mut().enumerate() {
                *c = carried_across(*c, rect.left + x, rect);
            }
        }
    }
    for x in rect.left..rect.right {
        let part = &mut layer[rect.top..rect.bottom];
        if part.iter().any(|row| row[x] == '│') {
            for (y, row) in part.iter_mut().enumerate() {
                row[x] = carried_down(row[x], rect.top + y, rect);
            }
        }
    }
    layer
}

fn carried_across(c: char, x: usize, rect: &Rect) -> char {
    match c {
        '│' if x == rect.left => '├',
        '│' if x == rect.right - 1 => '┤',
        '│' => '┼',
        '┤' if x < rect.right - 1 => '┼',
        '├' if x > 0 => '┼',
        BLANK => '─',
        c => c,
    }
}

fn carried_down(c: char, y: usize, rect: &Rect) -> char {
    match c {
        '─' if y == rect.top => '┬',
        '─' if y == rect.bottom - 1 => '┴',
        '─' => '┼',
        '┴' if y < rect.bottom - 1 => '┼',
        '┬' if y > rect.top => '┼',
        BLANK => '│',
        c => c,
    }
}

/// The places of all top-left corner characters, row by row.
fn corners(layer: &Layer) -> Vec<(usize, usize)> {
    let in_row = |y: usize| (0..layer[y].len()).map(move |x| (x, y));
    let places = (0..layer.len()).flat_map(in_row);
    places.filter(|(x, y)| TOP_LEFT.contains(&layer[*y][*x])).collect()
}

/// The text between the sides of a region.
fn region_text(text: &Layer, rect: &Rect) -> String {
    let part = |row: &Vec<char>| -> String { row[rect.left + 1..rect.right - 1].iter().collect() };
    let rows = text[rect.top + 1..rect.bottom - 1].iter().map(part);
    let rows: Vec<String> = rows.map(|row| row.trim().to_string()).collect();
    rows.into_iter().filter(|row| !row.is_empty()).collect::<Vec<_>>().join(" ")
}

/// The regions of all corners of THIN: their count is tested first, then all are walked, then the
/// bytes of their texts are added up.
fn regions(text: &Layer, thin: &Layer) -> Result<Regions, Stop> {
    let places = corners(thin);
    if places.len() > REGIONS {
        return Err(Stop::OverLimits("regions"));
    }
    let walked: Option<Vec<Rect>> = places.iter().map(|place| frame(thin, *place, &THIN)).collect();
    let rects = walked.ok_or(Stop::TheRust)?;
    let texts: Vec<String> = rects.iter().map(|rect| region_text(text, rect)).collect();
    if texts.iter().map(String::len).sum::<usize>() > TEXT_BYTES {
        return Err(Stop::OverLimits("texts"));
    }
    Ok((rects, texts))
}

impl Plane {
    /// Adds a cell at the end of a row, within the limits.
    fn add(&mut self, row: usize, kind: u64, region: usize) -> Result<(), Stop> {
        if row == self.rows.len() {
            self.rows.push(vec![]);
        }
        if row >= PLANE_ROWS {
            return Err(Stop::OverLimits("rows"));
        }
        if self.rows[row].len() >= PLANE_CELLS {
            return Err(Stop::OverLimits("cells"));
        }
        self.rows[row].push(PlaneCell { kind, region });
        Ok(())
    }

    /// Adds a row for a double line: one kind, and others in some columns.
    fn add_line(&mut self, line: u64, crossings: &[(Option<usize>, u64)]) -> Result<(), Stop> {
        let row = self.rows.len();
        for column in 0..self.rows.last().map_or(0, Vec::len) {
            let crossing = crossings.iter().find(|(at, _)| *at == Some(column));
            self.add(row, crossing.map_or(line, |(_, kind)| *kind), 0)?;
        }
        Ok(())
    }

    /// The first region that contains a rect.
    fn region_of(&self, rect: &Rect) -> Option<usize> {
        self.regions.iter().position(|region| region.contains(rect))
    }
}

/// The regions of a sheet's rows, where `Canvas::scan` succeeds.
pub fn regions_of(rows: &Layer) -> Result<Regions, Stop> {
    let (text, _) = filled(rows);
    regions(&text, &thin_layer(&text))
}

/// The plane of a sheet's rows, where `Canvas::scan` succeeds.
pub fn plane(rows: &Layer) -> Result<Plane, Stop> {
    let (text, blank) = filled(rows);
    let body = body(&text).ok_or(Stop::TheRust)?;
    let thin = thin_layer(&text);
    let grid = grid_layer(body_layer(&thin, blank, &body.rect), &body.rect);
    let (regions, texts) = regions(&text, &thin)?;
    let mut plane = Plane { rows: vec![], regions, texts };
    fill_plane(&mut plane, &grid, &body)?;
    Ok(plane)
}

/// The plane step. The cells of a frame are added after the frame is walked and its region found.
fn fill_plane(plane: &mut Plane, grid: &Layer, body: &Body) -> Result<(), Stop> {
    let (mut cross_column, mut annotation_column) = (None, None);
    for y in 0..grid.len() {
        if y == body.cross.1 {
            plane.add_line(3, &[(cross_column, 5), (annotation_column, 6)])?;
        }
        if Some(y) == body.cross_vert {
            plane.add_line(4, &[(cross_column, 7)])?;
        }
        let row = plane.rows.len();
        for x in 0..grid[y].len() {
            if !TOP_LEFT.contains(&grid[y][x]) {
                continue;
            }
            let rect = frame(grid, (x, y), &GRID).ok_or(Stop::TheRust)?;
            let region = plane.region_of(&rect).ok_or(Stop::TheRust)?;
            let column = |plane: &Plane| plane.rows.get(row).map_or(0, Vec::len);
            if x == body.cross.0 {
                cross_column = Some(column(plane));
                plane.add(row, 1, 0)?;
            }
            if Some(x) == body.cross_horz {
                annotation_column = Some(column(plane));
                plane.add(row, 2, 0)?;
            }
            plane.add(row, 0, region)?;
        }
    }
    Ok(())
}
