//! Texts of fare sheets.

use super::random::Random;

pub const POLICIES: [&str; 11] = ["U", "A", "P", "F", "R", "O", "C", "C+", "C#", "C<", "C>"];

/// Texts that are no hit policy, though some look like one.
pub const NO_POLICIES: [&str; 12] =
    ["c", "u", "X", "", "C +", "C=", "UU", "1", "+", "Ü", "C≤", "Unique"];

/// Texts that are no rule number, or not the wanted one.
pub const NO_NUMBERS: [&str; 16] = [
    "x",
    "",
    "0",
    "-1",
    "+",
    "++1",
    "1.",
    "1 1",
    "١",
    "00",
    "7",
    "2",
    "1a",
    "18446744073709551615",
    "18446744073709551616",
    "99999999999999999999999",
];

const STOPS: [&str; 26] = [
    "Zone",
    "Fare",
    "Köln Süd",
    "Straßburg Hbf",
    "München Ost",
    "Zürich HB",
    "Gare de l’Est",
    "Châtelet–Les Halles",
    "Besançon Viotte",
    "Nîmes",
    "Évry-Courcouronnes",
    "Fahrgäste über 60",
    "tarif réduit",
    "Öschelbronn",
    "Übergang",
    "運賃",
    "新宿 → 渋谷",
    "東京駅",
    "서울역",
    "e\u{301}cole",
    "A\u{30A}rhus",
    "Ti\u{1EBF}ng Vi\u{1EC7}t",
    "🚌 Bus",
    "𝄞 𝄢",
    "Łódź",
    "ﬁn de zone",
];

const ENTRIES: [&str; 26] = [
    "-",
    "\"A\"",
    "\"B\", \"C\"",
    "120",
    "90.50",
    "< 5",
    ">= 18",
    "[1..3]",
    "]4..9[",
    "not(\"A\")",
    "true",
    "null",
    "1",
    "2",
    "3",
    "2,40 €",
    "1.80 CHF",
    "¥210",
    "U",
    "date(\"2026-07-01\")",
    "if Zone = \"A\" then 120 else 90",
    "\"ab,cd\"",
    "a\tb",
    "x ░ y",
    "0",
    "C+",
];

/// Characters with the property White_Space, as they come before, in and after texts.
const BLANKS: [&str; 13] = [
    " ", "\r", "\u{A0}", "\u{2003}", "\u{3000}", "\t", "\u{2009}", "\u{202F}", "\u{1680}",
    "\u{85}", "\u{2028}", "\u{B}", "\u{205F}",
];

/// Characters that look blank and are not White_Space.
const NO_BLANKS: [&str; 4] = ["\u{200B}", "\u{FEFF}", "\u{2060}", "\u{180E}"];

const MARKS: [&str; 8] = ["**", "__", "*", "_", "`", "***", "_*", "``"];

const VALUES: [&str; 14] =
    ["Yes", "No", "A", "B", "low", "high", "12", "élevé", "größer", "高", "🚌", "a b", "", "aa"];

/// Texts with box characters in them, which mostly spoil a sheet.
const BOXES: [&str; 10] = ["─", "═", "│", "║", "A ─ B", "x ┌ y", "┼", "╬", "╥", "┘"];

/// Boxes within a box. One without ─ makes a row of the plane that has only few cells.
const SMALL_BOXES: [&[&str]; 6] = [
    &["┌┐", "└┘"],
    &["┌┬┐", "└┴┘"],
    &["┌┐", "││", "└┘"],
    &["┌─┐", "│x│", "└─┘"],
    &["┌┐", "├┤", "└┘"],
    &["┌─┐", "└─┘"],
];

const PROSE: [&str; 14] = [
    "Fares from 1 July",
    "see depot notice 12",
    "# Tarif",
    "> quoted",
    "* * *",
    "gültig ab sofort",
    "voir l’annexe",
    "└ not a sheet ┘",
    "a ┌ in the middle",
    "│",
    "===",
    "時刻表",
    "\u{FEFF}note",
    ".",
];

/// A name of a stop or a fare.
pub fn stop(random: &mut Random) -> String {
    let mut text = random.text(&STOPS);
    if random.chance(15) {
        text = format!("{text} {}", random.text(&STOPS));
    }
    text
}

/// An entry of a rule; some are empty.
pub fn entry(random: &mut Random) -> String {
    match random.below(10) {
        0 => String::new(),
        1 => stop(random),
        _ => random.text(&ENTRIES),
    }
}

/// Allowed values, some of them marked.
pub fn values(random: &mut Random) -> String {
    let parts: Vec<String> = (0..random.between(1, 4)).map(|_| value(random)).collect();
    let comma = random.text(&[", ", ",", " , ", ",\u{A0}"]);
    parts.join(&comma)
}

fn value(random: &mut Random) -> String {
    let value = random.text(&VALUES);
    match random.below(8) {
        0 | 1 => {
            let mark = random.text(&MARKS);
            format!("{mark}{value}{mark}")
        }
        2 => format!("{}{value}{}", random.text(&MARKS), random.text(&MARKS)),
        3 => format!("{}{value}", random.text(&MARKS)),
        4 => format!("\"{value}\""),
        _ => value,
    }
}

/// A line of prose that does not begin with ┌.
pub fn prose(random: &mut Random) -> String {
    random.text(&PROSE)
}

/// White space of one to three characters.
pub fn blanks(random: &mut Random) -> String {
    (0..random.between(1, 3)).map(|_| random.text(&BLANKS)).collect()
}

/// A rule number as it may be written.
pub fn number(random: &mut Random, number: usize) -> String {
    match random.below(60) {
        0 => format!("+{number}"),
        1 => format!("0{number}"),
        2 => format!("+000{number}"),
        3 => format!("\u{3000}{number}\u{A0}"),
        _ => number.to_string(),
    }
}

/// Now and then, white space or a box character is added to a text.
pub fn varied(random: &mut Random, text: String) -> String {
    match random.below(400) {
        0..=19 => format!("{}{text}", blanks(random)),
        20..=39 => format!("{text}{}", blanks(random)),
        40..=49 => format!("{text}{}{text}", blanks(random)),
        50..=54 => format!("{text}{}", random.text(&NO_BLANKS)),
        55 => random.text(&BOXES),
        _ => text,
    }
}

/// Lines with box characters in them: one character, or a small box.
pub fn boxed(random: &mut Random) -> Vec<String> {
    let lines = random.pick(&SMALL_BOXES).iter().map(|line| line.to_string());
    if random.chance(50) { lines.collect() } else { vec![random.text(&BOXES)] }
}

/// A text as the lines that it has in its box: cut at blanks, now and then with empty lines.
pub fn wrapped(random: &mut Random, text: &str) -> Vec<String> {
    if text.is_empty() {
        return vec![];
    }
    let mut lines = vec![String::new()];
    for word in text.split(' ') {
        let line = lines.last_mut().expect("there is a line");
        if line.is_empty() {
            line.push_str(word);
        } else if random.chance(25) {
            lines.push(word.to_string());
        } else {
            line.push(' ');
            line.push_str(word);
        }
    }
    if random.chance(4) {
        let place = random.below(lines.len() + 1);
        lines.insert(place, String::new());
    }
    lines
}
