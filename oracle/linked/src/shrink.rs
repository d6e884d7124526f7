//! Cuts an input down as long as it shows what it shows.

use judge::lent::Lent;
use std::ops::Range;
use std::time::{Duration, Instant};

/// How long an input is cut down at most.
const PATIENCE: Duration = Duration::from_secs(60);

/// Up to so many places are cut together at every place; more at every half of so many.
const FEW: usize = 6;

/// What can be made smaller in several sorts of ways, each at some places.
pub trait Cut: Sized {
    const SORTS: usize;

    fn places(&self, sort: usize) -> usize;

    /// The input with some places cut; nothing where it would not be smaller.
    fn without(&self, sort: usize, places: Range<usize>) -> Option<Self>;
}

/// The smallest input found: no cut of it at one place shows the same, unless time runs out.
pub fn shrunk<I: Cut>(mut input: I, shows: impl Fn(&I) -> bool) -> I {
    let began = Instant::now();
    let shows = |less: &I| began.elapsed() < PATIENCE && shows(less);
    loop {
        let mut is_smaller = false;
        for sort in 0..I::SORTS {
            let mut size = input.places(sort);
            while size > 0 {
                is_smaller |= pass(&mut input, sort, size, shows);
                size = if size > FEW { size / 2 } else { size - 1 };
            }
        }
        if !is_smaller {
            return input;
        }
    }
}

/// Cuts so many places at a time, from the first to the last; whether a cut was made. A cut is tried again where it was made: what
/// stood behind it may stand there now.
fn pass<I: Cut>(input: &mut I, sort: usize, size: usize, shows: impl Fn(&I) -> bool) -> bool {
    let (mut place, mut is_smaller) = (0, false);
    while place < input.places(sort) {
        let end = input.places(sort).min(place + size);
        match input.without(sort, place..end).filter(&shows) {
            Some(less) => {
                *input = less;
                is_smaller = true;
            }
            None => place += if size > FEW { size / 2 } else { 1 },
        }
    }
    is_smaller
}

/// The characters of a text; an ill-formed part is one.
fn characters(text: &[u8]) -> Vec<&[u8]> {
    let mut all = vec![];
    for chunk in text.utf8_chunks() {
        let valid = chunk.valid();
        all.extend(valid.char_indices().map(|(at, c)| &valid.as_bytes()[at..at + c.len_utf8()]));
        if !chunk.invalid().is_empty() {
            all.push(chunk.invalid());
        }
    }
    all
}

fn without_some<T: Clone>(list: &[T], places: Range<usize>) -> Vec<T> {
    let places = places.start.min(list.len())..places.end.min(list.len());
    [&list[..places.start], &list[places.end..]].concat()
}

/// A text without some characters.
fn without_characters(text: &[u8], places: Range<usize>) -> Vec<u8> {
    without_some(&characters(text), places).concat()
}

/// A text with some characters written as another one; nothing where they are that already, or shorter.
fn rewritten(text: &[u8], places: Range<usize>, new: &[u8]) -> Option<Vec<u8>> {
    let mut all = characters(text);
    for character in &mut all[places] {
        if character.len() >= new.len() && *character != b"\n" && *character != b" " {
            *character = new;
        }
    }
    let less = all.concat();
    (less != text).then_some(less)
}

/// A text: characters are cut, or written as a letter.
impl Cut for Vec<u8> {
    const SORTS: usize = 2;

    fn places(&self, _: usize) -> usize {
        characters(self).len()
    }

    fn without(&self, sort: usize, places: Range<usize>) -> Option<Self> {
        match sort {
            0 => Some(without_characters(self, places)),
            _ => rewritten(self, places, b"x"),
        }
    }
}

/// A sheet.
#[derive(Debug, Clone, PartialEq, Eq)]
pub struct Drawn(pub Vec<u8>);

impl Drawn {
    fn lines(&self) -> Vec<&[u8]> {
        self.0.split(|byte| *byte == b'\n').collect()
    }

    fn without_columns(&self, columns: Range<usize>) -> Vec<u8> {
        let cut = |line: &&[u8]| without_characters(line, columns.clone());
        self.lines().iter().map(cut).collect::<Vec<_>>().join(&b'\n')
    }
}

/// Box characters that stand upright, between which a text may be moved.
const SIDES: &str = "│║├┤╞╡╟╢┼╪╫╬┌┐└┘┬┴╥╨╤╧";

/// A line with a character less in the box of a column: a blank or a piece of a line rather than a letter.
fn narrowed(line: &[u8], column: usize) -> Vec<u8> {
    let all = characters(line);
    let is_side = |place: &usize| SIDES.contains(&*String::from_utf8_lossy(all[*place]));
    let is_letter = |place: usize| !matches!(all[place], b" " | b"\xE2\x94\x80" | b"\xE2\x95\x90");
    if column >= all.len() || is_side(&column) || !is_letter(column) {
        return without_characters(line, column..column + 1);
    }
    let start = (0..column).rev().find(is_side).map_or(0, |side| side + 1);
    let end = (column..all.len()).find(is_side).unwrap_or(all.len());
    let place = (start..end).find(|place| !is_letter(*place)).unwrap_or(column);
    without_characters(line, place..place + 1)
}

/// Rows, columns and characters are cut, boxes narrowed, or characters are written as a blank or as a letter.
impl Cut for Drawn {
    const SORTS: usize = 6;

    fn places(&self, sort: usize) -> usize {
        let lines = self.lines();
        match sort {
            0 => lines.len(),
            1 | 5 => lines.iter().map(|line| characters(line).len()).max().unwrap_or(0),
            _ => characters(&self.0).len(),
        }
    }

    fn without(&self, sort: usize, places: Range<usize>) -> Option<Self> {
        let less = match sort {
            0 => Some(without_some(&self.lines(), places).join(&b'\n')),
            1 => Some(self.without_columns(places)),
            2 => Some(without_characters(&self.0, places)),
            3 => rewritten(&self.0, places, b" "),
            4 => rewritten_letters(&self.0, places),
            _ => {
                let cut = |line: &&[u8]| narrowed(line, places.start);
                Some(self.lines().iter().map(cut).collect::<Vec<_>>().join(&b'\n'))
            }
        };
        less.filter(|less| *less != self.0).map(Drawn)
    }
}

/// Long characters as a short one.
fn rewritten_letters(text: &[u8], places: Range<usize>) -> Option<Vec<u8>> {
    let is_long = |character: &&[u8]| character.len() > 1;
    let has_long = characters(text)[places.clone()].iter().any(is_long);
    has_long.then(|| rewritten(text, places, b"x")).flatten()
}

/// A lent plane: rows, columns, cells, regions and bytes are cut with all that belongs to them; then elements of each list alone; then
/// its numbers are halved.
impl Cut for Lent {
    const SORTS: usize = 16;

    fn places(&self, sort: usize) -> usize {
        match sort {
            0 => self.row_lengths.len(),
            1 => self.row_lengths.iter().max().map_or(0, |length| *length.min(&100) as usize),
            2 => self.kinds.len(),
            3 => self.offsets.len().min(self.lengths.len()),
            4 => self.bytes.len(),
            sort => self.lists()[(sort - 5) % 6].len(),
        }
    }

    fn without(&self, sort: usize, places: Range<usize>) -> Option<Self> {
        let less = match sort {
            0..=2 => self.without_cells(sort, places)?,
            3 => without_regions(self, places),
            4 => without_bytes(self, places),
            5..=10 => {
                let mut lists = self.lists();
                lists[sort - 5] = without_some(&lists[sort - 5], places);
                Lent::of_lists(lists.to_vec())?
            }
            _ => {
                let mut lists = self.lists();
                lists[sort - 11][places].iter_mut().for_each(|number| *number /= 2);
                Lent::of_lists(lists.to_vec())?
            }
        };
        (less != *self).then_some(less)
    }
}

/// Cells by their places in a plane.
trait Cells: Sized {
    fn without_cells(&self, sort: usize, places: Range<usize>) -> Option<Self>;
}

impl Cells for Lent {
    /// Without some rows (0), columns (1) or cells (2); nothing where the row lengths do not count the cells.
    fn without_cells(&self, sort: usize, places: Range<usize>) -> Option<Self> {
        let cells: u128 = self.row_lengths.iter().map(|length| u128::from(*length)).sum();
        if cells != self.kinds.len() as u128 || self.kinds.len() != self.regions.len() {
            return None;
        }
        let mut less = Lent { row_lengths: vec![], kinds: vec![], regions: vec![], ..self.clone() };
        let mut place = 0;
        for (row, length) in self.row_lengths.iter().enumerate() {
            let mut kept = 0;
            for column in 0..*length as usize {
                if !places.contains(&[row, column, place][sort]) {
                    less.kinds.push(self.kinds[place]);
                    less.regions.push(self.regions[place]);
                    kept += 1;
                }
                place += 1;
            }
            if sort != 0 || !places.contains(&row) {
                less.row_lengths.push(kept);
            }
        }
        Some(less)
    }
}

/// Without some regions; a cell of one of these has the first region then.
fn without_regions(lent: &Lent, places: Range<usize>) -> Lent {
    let (start, end) = (places.start as u64, places.end as u64);
    let mut less = lent.clone();
    less.offsets = without_some(&lent.offsets, places.clone());
    less.lengths = without_some(&lent.lengths, places);
    for region in &mut less.regions {
        *region = match *region {
            number if number >= end => number - (end - start),
            number if number >= start => 0,
            number => number,
        };
    }
    less
}

/// Without some bytes, the texts shorter by those that they had.
fn without_bytes(lent: &Lent, places: Range<usize>) -> Lent {
    let (start, end) = (places.start as u64, places.end as u64);
    let moved = |place: u64| if place < end { place.min(start) } else { place - (end - start) };
    let mut less = lent.clone();
    less.bytes = without_some(&lent.bytes, places);
    for (offset, length) in less.offsets.iter_mut().zip(&mut less.lengths) {
        let behind = offset.saturating_add(*length);
        *offset = moved(*offset);
        *length = moved(behind) - *offset;
    }
    less
}
