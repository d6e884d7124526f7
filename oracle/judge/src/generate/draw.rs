//! From a grid of boxes to box characters.

use super::grid::{Grid, Places};
use super::random::Random;
use std::collections::HashMap;

/// A picture: rows of characters.
pub type Picture = Vec<Vec<char>>;

/// The text of a picture.
pub fn text(picture: &Picture) -> String {
    let lines: Vec<String> = picture.iter().map(|row| row.iter().collect()).collect();
    lines.join("\n")
}

/// A grid with its double lines, the width of each column and the height of each row.
pub struct Drawing {
    pub grid: Grid,
    /// Lines between rows, each by the number of the row below.
    pub double_rows: Vec<usize>,
    /// Lines between columns, each by the number of the column on the right.
    pub double_columns: Vec<usize>,
    pub widths: Vec<usize>,
    pub heights: Vec<usize>,
    /// Pieces of lines with a style of their own: across or down, column, row.
    pub styles: HashMap<(bool, usize, usize), usize>,
}

/// The characters of crossings and ends, by the styles (0 none, 1 single, 2 double) of the lines
/// going up, right, down and left.
const JOINTS: [([usize; 4], char); 29] = [
    ([0, 1, 1, 0], '┌'),
    ([0, 0, 1, 1], '┐'),
    ([1, 1, 0, 0], '└'),
    ([1, 0, 0, 1], '┘'),
    ([0, 1, 1, 1], '┬'),
    ([0, 1, 2, 1], '╥'),
    ([0, 2, 1, 2], '╤'),
    ([1, 1, 0, 1], '┴'),
    ([2, 1, 0, 1], '╨'),
    ([1, 2, 0, 2], '╧'),
    ([1, 1, 1, 0], '├'),
    ([1, 2, 1, 0], '╞'),
    ([2, 1, 2, 0], '╟'),
    ([1, 0, 1, 1], '┤'),
    ([1, 0, 1, 2], '╡'),
    ([2, 0, 2, 1], '╢'),
    ([1, 1, 1, 1], '┼'),
    ([2, 1, 2, 1], '╫'),
    ([1, 2, 1, 2], '╪'),
    ([2, 2, 2, 2], '╬'),
    ([0, 1, 0, 1], '─'),
    ([0, 2, 0, 2], '═'),
    ([1, 0, 1, 0], '│'),
    ([2, 0, 2, 0], '║'),
    ([0, 0, 0, 0], ' '),
    // a double line along an edge
    ([0, 2, 2, 2], '╬'),
    ([2, 2, 0, 2], '╬'),
    ([2, 2, 2, 0], '╬'),
    ([2, 0, 2, 2], '╬'),
];

/// The character for the lines at a point, or the nearest one with single lines.
fn joint(lines: [usize; 4]) -> char {
    let find = |lines| JOINTS.iter().find(|(styles, _)| *styles == lines).map(|(_, c)| *c);
    let end = if lines[0] + lines[2] > 0 { '│' } else { '─' };
    find(lines).or_else(|| find(lines.map(|style| style.min(1)))).unwrap_or(end)
}

impl Drawing {
    /// A drawing in which every text has room. Columns and rows without text have the least size.
    pub fn fitted(
        random: &mut Random,
        grid: Grid,
        double_rows: Vec<usize>,
        double_columns: Vec<usize>,
        least: (usize, usize),
    ) -> Self {
        let widths = vec![least.0; grid.columns()];
        let heights = vec![least.1; grid.rows()];
        let styles = HashMap::new();
        let mut drawing = Self { grid, double_rows, double_columns, widths, heights, styles };
        let mut extents = drawing.grid.extents();
        extents.sort_by_key(|(_, e)| (e.right - e.left) * (e.bottom - e.top));
        for (number, extent) in extents {
            drawing.make_room(random, number, extent);
        }
        drawing
    }

    /// Widens the last column and heightens the last row of a box until its text has room.
    fn make_room(&mut self, random: &mut Random, number: usize, extent: Places) {
        let lines = &self.grid.texts[number];
        let longest = lines.iter().map(|line| line.chars().count()).max().unwrap_or(0);
        let margin = if longest == 0 { 0 } else { random.pick(&[0, 1, 2, 2, 2, 2, 3]) };
        let width = self.inner(&self.widths, extent.left, extent.right);
        self.widths[extent.right - 1] += (longest + margin).saturating_sub(width);
        let height = self.inner(&self.heights, extent.top, extent.bottom);
        self.heights[extent.bottom - 1] += lines.len().saturating_sub(height);
    }

    /// Rubs out or draws some pieces of lines, with the right characters where they meet others.
    /// A gap in the top edge is frequent: it may leave the plane uneven.
    pub fn redraw_pieces(&mut self, random: &mut Random) {
        for _ in 0..random.pick(&[1, 1, 2, 3, 4]) {
            let (x, y) = (random.below(self.grid.columns()), random.below(self.grid.rows()));
            if random.chance(50) {
                self.styles.insert((true, x, 0), 0);
            } else {
                let style = random.pick(&[0, 0, 0, 1, 1, 2]);
                self.styles.insert((random.chance(50), x, y), style);
            }
        }
    }

    /// The size between the sides of a box.
    fn inner(&self, sizes: &[usize], start: usize, end: usize) -> usize {
        sizes[start..end].iter().sum::<usize>() + (end - start - 1)
    }

    /// The place of a line in the picture.
    fn place(sizes: &[usize], line: usize) -> usize {
        sizes[..line].iter().map(|size| size + 1).sum()
    }

    pub fn width(&self) -> usize {
        Self::place(&self.widths, self.widths.len()) + 1
    }

    pub fn height(&self) -> usize {
        Self::place(&self.heights, self.heights.len()) + 1
    }

    /// The style of the line above row y (or below the last row), in column x.
    fn across(&self, x: usize, y: usize) -> usize {
        let edge = y == 0 || y == self.grid.rows();
        if let Some(style) = self.styles.get(&(true, x, y)) {
            *style
        } else if self.double_rows.contains(&y) {
            2
        } else if edge || self.grid.boxes[y - 1][x] != self.grid.boxes[y][x] {
            1
        } else {
            0
        }
    }

    /// The style of the line on the left of column x (or on the right of the last), in row y.
    fn down(&self, x: usize, y: usize) -> usize {
        let edge = x == 0 || x == self.grid.columns();
        if let Some(style) = self.styles.get(&(false, x, y)) {
            *style
        } else if self.double_columns.contains(&x) {
            2
        } else if edge || self.grid.boxes[y][x - 1] != self.grid.boxes[y][x] {
            1
        } else {
            0
        }
    }

    /// The character where the lines above row y and on the left of column x meet.
    fn meeting(&self, x: usize, y: usize) -> char {
        let (columns, rows) = (self.grid.columns(), self.grid.rows());
        joint([
            if y > 0 { self.down(x, y - 1) } else { 0 },
            if x < columns { self.across(x, y) } else { 0 },
            if y < rows { self.down(x, y) } else { 0 },
            if x > 0 { self.across(x - 1, y) } else { 0 },
        ])
    }

    /// The picture of the lines and texts.
    pub fn picture(&self, random: &mut Random) -> Picture {
        let mut picture = vec![vec![' '; self.width()]; self.height()];
        for y in 0..=self.grid.rows() {
            for x in 0..=self.grid.columns() {
                self.draw_lines(&mut picture, x, y);
            }
        }
        for (number, extent) in self.grid.extents() {
            self.draw_text(random, &mut picture, number, extent);
        }
        picture
    }

    /// Draws a meeting of lines, and the lines from it to the right and down.
    fn draw_lines(&self, picture: &mut Picture, x: usize, y: usize) {
        let (left, top) = (Self::place(&self.widths, x), Self::place(&self.heights, y));
        picture[top][left] = self.meeting(x, y);
        if x < self.grid.columns() {
            let c = [' ', '─', '═'][self.across(x, y)];
            picture[top][left + 1..left + 1 + self.widths[x]].fill(c);
        }
        if y < self.grid.rows() {
            let c = [' ', '│', '║'][self.down(x, y)];
            for row in &mut picture[top + 1..top + 1 + self.heights[y]] {
                row[left] = c;
            }
        }
    }

    /// Writes the lines of a box somewhere between its sides.
    fn draw_text(&self, random: &mut Random, picture: &mut Picture, number: usize, e: Places) {
        let lines = &self.grid.texts[number];
        if lines.is_empty() {
            return;
        }
        let (left, top) = (Self::place(&self.widths, e.left), Self::place(&self.heights, e.top));
        let width = self.inner(&self.widths, e.left, e.right);
        let height = self.inner(&self.heights, e.top, e.bottom);
        let first = top + 1 + random.below(height - lines.len() + 1);
        let straight = random.chance(70);
        for (index, line) in lines.iter().enumerate() {
            let characters: Vec<char> = line.chars().collect();
            let free = width - characters.len();
            let in_line = straight || random.chance(60);
            let shift = if in_line { free.min(1) } else { random.below(free + 1) };
            let start = left + 1 + shift;
            picture[first + index][start..start + characters.len()].copy_from_slice(&characters);
        }
    }
}
