//! Texts for the value split.

use super::random::Random;
use super::texts;

const PIECES: [&str; 22] = [
    "*", "*", "**", "_", "_", "__", "`", "`", ",", ",", ", ", " ", "a", "b", "é", "高", "🚌",
    "Yes", "No", "\u{A0}", "\u{3000}", "\u{2003}",
];

/// The letters of the short texts: all marks, and letters of two and three bytes.
const LETTERS: [&[u8]; 7] = [b"*", b"_", b"`", b",", b" ", "é".as_bytes(), "高".as_bytes()];

/// The bytes of the short texts that are mostly ill-formed: leading and following bytes at the
/// edges of table 3-7.
const BYTES: [u8; 12] = *b"*,a\x80\x90\xA0\xBF\xC3\xE0\xED\xF0\xF4";

/// One of all texts of letters, by its place, the shorter ones first.
pub fn short(case: u64) -> Vec<u8> {
    enumerated(&LETTERS, case)
}

/// One of all texts of bytes, by its place, the shorter ones first.
pub fn short_bytes(case: u64) -> Vec<u8> {
    let bytes: Vec<&[u8]> = BYTES.chunks(1).collect();
    enumerated(&bytes, case)
}

fn enumerated(letters: &[&[u8]], case: u64) -> Vec<u8> {
    let base = letters.len() as u64;
    let mut text = vec![];
    let mut rest = case;
    while rest > 0 {
        rest -= 1;
        text.push(letters[(rest % base) as usize]);
        rest /= base;
    }
    text.reverse();
    text.concat()
}

/// A text of up to some hundred pieces.
pub fn long(random: &mut Random) -> Vec<u8> {
    let most = random.pick(&[60, 200, 600]);
    let few = random.between(2, PIECES.len());
    let pieces: Vec<&str> = (0..few).map(|_| random.pick(&PIECES)).collect();
    let text: String = (0..random.between(30, most)).map(|_| random.text(&pieces)).collect();
    text.into_bytes()
}

/// A text of marks, commas, blanks and letters.
pub fn text(random: &mut Random) -> Vec<u8> {
    let mut bytes = match random.below(10) {
        0 => texts::values(random).into_bytes(),
        1 => repeated(random).into_bytes(),
        _ => mixed(random).into_bytes(),
    };
    if random.once_in(40) && !bytes.is_empty() {
        let place = random.below(bytes.len());
        bytes[place] = random.pick(&[0x80, 0xC3, 0xE9, 0xF0, 0xFF, 0xED]);
    }
    bytes
}

fn mixed(random: &mut Random) -> String {
    let most = random.pick(&[3, 6, 10, 10, 16, 24]);
    (0..random.between(0, most)).map(|_| random.text(&PIECES)).collect()
}

/// A marked part that comes again in the text, alone or in a longer word.
fn repeated(random: &mut Random) -> String {
    let mark = random.text(&["*", "**", "_", "__", "`"]);
    let part = format!("{mark}{}{mark}", random.text(&["a", "aa", "", "é", "a*", "_a"]));
    let mut out = vec![];
    for _ in 0..random.between(1, 5) {
        out.push(match random.below(4) {
            0 => part.clone(),
            1 => format!("{part}{part}"),
            2 => format!("x{part}y"),
            _ => mixed(random),
        });
    }
    out.join(&random.text(&[",", ", ", " ,"]))
}
