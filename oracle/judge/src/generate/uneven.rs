//! Sheets whose planes are uneven, for refusals that even ones do not come to: each is a drawing made by hand, stretched, with other
//! texts.

use super::around;
use super::draw::Picture;
use super::random::Random;

/// Drawings by their rows. Small boxes in a row without ─ are the only cells of a row of the plane; a ┐ in the top line hides a column
/// from row 0.
pub const DRAWINGS: [(&str, &[&str]); 9] = [
    // the annotation line stands behind few cells in row 0, the main line behind more in the row of the small boxes
    (
        "refused 10 P7",
        &[
            "┌───┐────────────╥┐────╥──────┐",
            "│ U │            ║│    ║ note │",
            "│   │┌┐┌┐┌┐┌┐┌┐  ╟┤    ║      │",
            "│   │└┘└┘└┘└┘└┘  ║│    ║      │",
            "╞═══╪════════════╬╪════╬══════╡",
            "│ 1 │ a          ║│ b  ║ c    │",
            "└───┴────────────╨┴────╨──────┘",
        ],
    ),
    // the row above the double line begins with the main line
    (
        "refused 10 P3",
        &[
            "┌───┐────╥┐────┐",
            "│ U │    ║│    │",
            "│   │    ╟┤    │",
            "│   │    ║│    │",
            "╞═══╪════╬╪════╡",
            "│ 1 │ c  ║│ d  │",
            "└───┴────╨┴────┘",
        ],
    ),
    // two columns are hidden from row 0
    (
        "refused 10 P8",
        &[
            "┌───┐───┐────╥─────┐",
            "│ U │ a │ b  ║ out │",
            "├───┼───┼────╫─────┤",
            "│   │   │    ║     │",
            "╞═══╪═══╪════╬═════╡",
            "│ 1 │ x │ y  ║ z   │",
            "└───┴───┴────╨─────┘",
        ],
    ),
    // the annotations are
    (
        "refused 10 P9",
        &[
            "┌───┬────╥─────┐──────┐",
            "│ U │ a  ║ out │      │",
            "├───┼────╫─────╫──────┤",
            "│   │    ║     ║ note │",
            "╞═══╪════╬═════╬══════╡",
            "│ 1 │ x  ║ y   ║ z    │",
            "└───┴────╨─────╨──────┘",
        ],
    ),
    // the last row is that of a small box
    (
        "refused 10 P5",
        &[
            "┌────────╥─────┐",
            "│ a      ║ b   │",
            "╞════════╬═════╡",
            "│ c      ║ d   │",
            "├────────╫─────┤",
            "│ U ┌┐   ║ 1   │",
            "│   └┘   ║     │",
            "└────────╨─────┘",
        ],
    ),
    // a row of a small box
    (
        "refused 10 P6",
        &[
            "┌────────╥─────┐",
            "│ a      ║ b   │",
            "╞════════╬═════╡",
            "│ c ┌┐   ║ d   │",
            "│   └┘   ║     │",
            "├────────╫─────┤",
            "│ U      ║ 1   │",
            "└────────╨─────┘",
        ],
    ),
    // the row of the small box is shorter than the column of the main line
    (
        "refused 9",
        &[
            "┌───┬────────╥─────┐",
            "│ U │ a      ║ b   │",
            "│   │ ┌┐     ║     │",
            "│   │ └┘     ║     │",
            "╞═══╪════════╬═════╡",
            "│ 1 │ c      ║ d   │",
            "└───┴────────╨─────┘",
        ],
    ),
    // the clause row of the small boxes has too few cells
    (
        "refused 18",
        &[
            "┌───╥─────┬─────┐",
            "│ U ║ a   │ ┌┬┐ │",
            "│   ║     │ └┴┘ │",
            "╞═══╬═════╪═════╡",
            "│ 1 ║ b   │ c   │",
            "└───╨─────┴─────┘",
        ],
    ),
    // a column sheet without outputs
    ("refused 23", &["┌───╥───┐", "│ a ║ b │", "╞═══╬═══╡", "│ U ║ 1 │", "└───╨───┘"]),
];

const LETTERS: [char; 12] = ['a', 'b', 'z', 'U', 'é', '高', '1', '2', '-', '🚌', ' ', '*'];

fn is_letter(c: char) -> bool {
    c.is_ascii_lowercase()
}

/// A sheet of an uneven plane; now and then one character of it is another.
pub fn sheet(random: &mut Random) -> Vec<u8> {
    let (_, drawing) = random.pick(&DRAWINGS);
    let mut picture: Picture = drawing.iter().map(|row| row.chars().collect()).collect();
    for _ in 0..random.below(6) {
        stretch_columns(random, &mut picture);
        stretch_rows(random, &mut picture);
    }
    for c in picture.iter_mut().flatten().filter(|c| is_letter(**c)) {
        *c = random.pick(&LETTERS);
    }
    if random.once_in(5) {
        let y = random.below(picture.len());
        let x = random.below(picture[y].len());
        picture[y][x] = random.pick(&['┐', '┘', '└', '┌', '┼', '─', '│', '╪', '║', ' ', 'x']);
    }
    around::bytes(random, picture)
}

/// Doubles a column that has lines across and blanks alone.
fn stretch_columns(random: &mut Random, picture: &mut Picture) {
    let x = random.below(picture[0].len());
    if picture.iter().all(|row| matches!(row[x], '─' | '═' | ' ')) {
        picture.iter_mut().for_each(|row| row.insert(x, row[x]));
    }
}

/// Doubles a row that has lines down, blanks and letters alone; the letters are not doubled.
fn stretch_rows(random: &mut Random, picture: &mut Picture) {
    let y = random.below(picture.len());
    let is_plain = |c: &char| matches!(c, '│' | '║' | ' ') || c.is_ascii();
    if picture[y].iter().all(is_plain) {
        let blank = |c: &char| if c.is_ascii() { ' ' } else { *c };
        let row = picture[y].iter().map(blank).collect();
        picture.insert(y + 1, row);
    }
}
