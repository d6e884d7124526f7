//! Damaged sheets: copies of good ones with something wrong.

use super::edges;
use super::random::Random;
use super::shape::{FLAWS, Flaw};
use super::sheets;
use super::texts;

/// Box characters, the frequent ones more than once.
const BOXES: [char; 33] = [
    '┌', '┐', '└', '┘', '┬', '┴', '─', '─', '│', '│', '├', '┼', '┼', '┤', '═', '═', '║', '║', '╥',
    '╤', '╨', '╧', '╞', '╟', '╡', '╢', '╫', '╪', '╬', '╬', '░', ' ', ' ',
];

/// Bytes that are not UTF-8, or not any more where they stand.
pub const BAD_BYTES: [&[u8]; 12] = [
    &[0x80],
    &[0xC0, 0xAF],
    &[0xC1, 0x81],
    &[0xE2, 0x94],
    &[0xE0, 0x80, 0x80],
    &[0xED, 0xA0, 0x80],
    &[0xF0, 0x9F, 0x9A],
    &[0xF0, 0x80, 0x80, 0x80],
    &[0xF4, 0x90, 0x80, 0x80],
    &[0xF5, 0x80, 0x80, 0x80],
    &[0xFF],
    &[0xFE],
];

type Lines = Vec<Vec<char>>;

/// A damaged sheet.
pub fn damaged(random: &mut Random) -> Vec<u8> {
    match random.below(100) {
        0 => edges::sheet(random, true),
        1..=29 => flawed(random),
        30..=34 => with_bad_bytes(random),
        35 => tiny(random),
        36..=39 => {
            let bytes = flawed(random);
            worn(random, bytes)
        }
        _ => {
            let bytes = sheets::sheet(random, Flaw::None);
            worn(random, bytes)
        }
    }
}

/// A sheet that is drawn well and wrong in one way.
fn flawed(random: &mut Random) -> Vec<u8> {
    let flaw = random.pick(&FLAWS);
    sheets::sheet(random, flaw)
}

/// A few characters.
fn tiny(random: &mut Random) -> Vec<u8> {
    let count = random.below(8);
    let text: String = (0..count).map(|_| random.pick(&BOXES)).collect();
    let start = random.text(&["", "┌", "┌╥┐", "┌╥┐\n╞╬╡\n└╨┘", "┌╥┐\n└╨┘"]);
    (start + &text).into_bytes()
}

/// A sheet with ill-formed UTF-8 in it, or cut in the middle of a character.
fn with_bad_bytes(random: &mut Random) -> Vec<u8> {
    let mut bytes = sheets::sheet(random, Flaw::None);
    let place = random.below(bytes.len() + 1);
    if random.chance(30) {
        bytes.truncate(place);
    } else {
        let bad = random.pick(&BAD_BYTES);
        bytes.splice(place..place, bad.iter().copied());
    }
    bytes
}

/// A sheet with one to four damages.
fn worn(random: &mut Random, bytes: Vec<u8>) -> Vec<u8> {
    let text = String::from_utf8(bytes).expect("sheets are made of characters");
    let mut lines: Lines = text.split('\n').map(|line| line.chars().collect()).collect();
    for _ in 0..random.pick(&[1, 1, 1, 2, 2, 3, 4]) {
        damage(random, &mut lines);
    }
    let lines: Vec<String> = lines.iter().map(|line| line.iter().collect()).collect();
    lines.join("\n").into_bytes()
}

/// A place in the lines, on a box character if one is found soon.
fn place(random: &mut Random, lines: &Lines) -> Option<(usize, usize)> {
    let mut found = None;
    for _ in 0..12 {
        let y = random.below(lines.len());
        if lines[y].is_empty() {
            continue;
        }
        let x = random.below(lines[y].len());
        found = Some((x, y));
        if lines[y][x] != ' ' && BOXES.contains(&lines[y][x]) {
            break;
        }
    }
    found
}

fn new_character(random: &mut Random) -> char {
    if random.chance(85) {
        random.pick(&BOXES)
    } else {
        random.pick(&['x', '1', '2', 'é', '高', '\u{A0}', '-', '='])
    }
}

/// One damage.
fn damage(random: &mut Random, lines: &mut Lines) {
    let Some((x, y)) = place(random, lines) else { return };
    match random.below(20) {
        0..=6 => lines[y][x] = new_character(random),
        7 | 8 => {
            lines[y].remove(x);
        }
        9 | 10 => lines[y].insert(x, new_character(random)),
        11 => swap(random, lines, (x, y)),
        12 => lines[y].truncate(x),
        13 => {
            lines.remove(y);
            if lines.is_empty() {
                lines.push(vec![]);
            }
        }
        14 => lines.insert(y, lines[y].clone()),
        15 => remove_column(lines, x),
        16 => double_column(lines, x),
        17 => {
            let prose = texts::prose(random);
            lines[y].extend(prose.chars());
        }
        18 => {
            let other = random.below(lines.len());
            lines.swap(y, other);
        }
        _ => fill_run(random, lines, (x, y)),
    }
}

fn swap(random: &mut Random, lines: &mut Lines, (x, y): (usize, usize)) {
    if let Some((other_x, other_y)) = place(random, lines) {
        let other = lines[other_y][other_x];
        lines[other_y][other_x] = lines[y][x];
        lines[y][x] = other;
    }
}

fn remove_column(lines: &mut Lines, x: usize) {
    for line in lines.iter_mut().filter(|line| line.len() > x) {
        line.remove(x);
    }
}

fn double_column(lines: &mut Lines, x: usize) {
    for line in lines.iter_mut().filter(|line| line.len() > x) {
        line.insert(x, line[x]);
    }
}

/// Rubs out a piece of a line, or draws one.
fn fill_run(random: &mut Random, lines: &mut Lines, (x, y): (usize, usize)) {
    let c = random.pick(&[' ', '─', '═', '│', '░']);
    let end = (x + random.between(1, 6)).min(lines[y].len());
    lines[y][x..end].fill(c);
}
