//! What stands around the body of a sheet: the name, notes, prose, indents and line ends.

use super::draw::Picture;
use super::random::Random;
use super::texts;

/// Adds boxes and texts around the body.
pub fn framed(random: &mut Random, body: Picture) -> Picture {
    let mut picture = body;
    if random.chance(5) {
        picture = with_left_note(random, picture);
    }
    if random.chance(40) {
        picture = with_name(random, picture);
    }
    if random.chance(4) {
        add_legend(random, &mut picture);
    }
    if random.chance(8) {
        add_side_prose(random, &mut picture);
    }
    picture
}

fn characters(text: &str) -> Vec<char> {
    text.chars().collect()
}

/// A row of the sides of a box and a text or a line between them.
fn sided(left: char, inner: &[char], fill: char, width: usize, right: char) -> Vec<char> {
    let mut row = vec![left];
    row.extend(inner.iter().take(width));
    row.resize(width + 1, fill);
    row.push(right);
    row
}

/// A box as high as the body on its left, so that the body does not start at column 0.
pub fn with_left_note(random: &mut Random, body: Picture) -> Picture {
    let text = characters(&texts::stop(random));
    let width = random.between(1, 9);
    let last = body.len() - 1;
    let row = |(y, row): (usize, Vec<char>)| {
        let (left, fill) = match y {
            0 => ('┌', '─'),
            y if y == last => ('└', '─'),
            _ => ('│', ' '),
        };
        let first = match row[0] {
            '┌' => '┬',
            '└' => '┴',
            c => c,
        };
        let inner = if y == 1 && y < last { text.as_slice() } else { &[] };
        let mut noted = sided(left, inner, fill, width, first);
        noted.extend(&row[1..]);
        noted
    };
    body.into_iter().enumerate().map(row).collect()
}

/// A name box above the body: narrower, as wide, or wider.
fn with_name(random: &mut Random, body: Picture) -> Picture {
    let width = body[0].len();
    let right = match random.below(10) {
        0..=4 if width > 4 => random.between(2, width - 2),
        5 => width + random.below(8),
        _ => width - 1,
    };
    // no box character has a single line above and a double line below
    let on_double = body[0].get(right) == Some(&'╥');
    let right = if on_double && random.chance(90) { right - 1 } else { right };
    let text = if random.chance(6) { String::new() } else { texts::stop(random) };
    let text = texts::varied(random, text);
    let lines = match texts::wrapped(random, &text) {
        _ if random.chance(2) => texts::boxed(random),
        lines if lines.is_empty() && random.chance(50) => vec![String::new()],
        lines => lines,
    };
    let indent = if right > 4 { " " } else { "" };
    let mut picture = vec![sided('┌', &[], '─', right - 1, '┐')];
    for line in lines {
        let inner = characters(&format!("{indent}{line}"));
        picture.push(sided('│', &inner, ' ', right - 1, '│'));
    }
    picture.extend(under_name(random, body, right));
    picture
}

/// The body with its top line joined to the name box.
fn under_name(random: &mut Random, body: Picture, right: usize) -> Picture {
    let mut body = body;
    let top = &mut body[0];
    let last = top.len() - 1;
    top[0] = '├';
    if right > last {
        top[last] = '┬';
        top.resize(right, '─');
        top.push(random.pick(&['┘', '┤']));
        return body;
    }
    top[right] = match top[right] {
        '─' => '┴',
        '┬' => '┼',
        '┐' => '┤',
        c => c,
    };
    body
}

/// A box on the right, away from the body. Its closing line ends with a dot, as it would end the
/// sheet otherwise.
fn add_legend(random: &mut Random, picture: &mut Picture) {
    let width = picture.iter().map(Vec::len).max().unwrap_or(0) + random.between(1, 3);
    let text = characters(&texts::stop(random));
    let rows = [
        sided('┌', &[], '─', text.len(), '┐'),
        sided('│', &text, ' ', text.len(), '│'),
        sided('└', &[], '─', text.len(), '┘'),
    ];
    let first = random.below(picture.len().saturating_sub(3).max(1));
    for (row, part) in picture[first..].iter_mut().zip(rows) {
        row.resize(width, ' ');
        row.extend(part);
        row.extend([' ', '.']);
    }
}

/// Prose on the right of some rows.
fn add_side_prose(random: &mut Random, picture: &mut Picture) {
    for row in picture {
        if random.chance(20) {
            let prose = format!("  {}", texts::prose(random));
            row.extend(prose.chars());
        }
    }
}

/// The line ends of a sheet.
const ENDS: [&str; 6] = ["\n", "\n", "\n", "\n", "\r\n", "\r\n"];

/// The bytes of a sheet: prose, indents, blank lines, and line ends.
pub fn bytes(random: &mut Random, picture: Picture) -> Vec<u8> {
    let mut lines: Vec<String> = picture.iter().map(|row| row.iter().collect()).collect();
    if random.chance(3) {
        leave_open(random, &mut lines);
    }
    if random.chance(25) {
        indent(random, &mut lines);
    }
    if random.chance(6) {
        add_blank_lines(random, &mut lines);
    }
    for _ in 0..random.pick(&[0, 0, 0, 1, 2]) {
        lines.insert(0, texts::prose(random));
    }
    for _ in 0..random.pick(&[0, 0, 0, 1, 2]) {
        lines.push(texts::prose(random));
    }
    let end = random.text(&ENDS);
    let mut text = lines.join(&end);
    if random.chance(70) {
        text.push_str(&end);
    }
    text.into_bytes()
}

/// The last line does not end with ┘, or there is none.
fn leave_open(random: &mut Random, lines: &mut Vec<String>) {
    if let Some(last) = lines.pop()
        && random.chance(75)
    {
        lines.push(format!("{last} {}", texts::prose(random)));
    }
}

/// The same indent for all lines, or one for each.
fn indent(random: &mut Random, lines: &mut [String]) {
    let same = texts::blanks(random);
    let each = random.chance(30);
    for line in lines {
        let indent = if each { texts::blanks(random) } else { same.clone() };
        *line = format!("{indent}{line}");
        if random.chance(10) {
            line.push_str(&texts::blanks(random));
        }
    }
}

fn add_blank_lines(random: &mut Random, lines: &mut Vec<String>) {
    for _ in 0..random.between(1, 4) {
        let place = random.below(lines.len() + 1);
        let blank = if random.chance(50) { String::new() } else { texts::blanks(random) };
        lines.insert(place, blank);
    }
}
