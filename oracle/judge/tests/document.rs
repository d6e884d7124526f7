//! The examples of document 01.

use judge::outcome::{Outcome, Told, refused, refused_plainly};
use judge::sheet::judge_sheet;
use judge::split::judge_split;

const ALL: usize = usize::MAX;

fn answer(text: &str) -> Outcome {
    judge_sheet(text.as_bytes(), ALL).expect("the judge agrees with the Rust")
}

fn told(number: u32, a: usize, b: usize) -> Outcome {
    refused(number, a.into(), b.into())
}

/// A row sheet with one input and one output.
fn row_sheet(policy: &str, numbers: &[&str]) -> String {
    let mut lines = vec!["┌──────────────────────┬───╥───┐".to_string()];
    lines.push(format!("│ {policy:20} │ a ║ b │"));
    let mut line = "╞══════════════════════╪═══╬═══╡";
    for number in numbers {
        lines.push(line.to_string());
        lines.push(format!("│ {number:20} │ x ║ y │"));
        line = "├──────────────────────┼───╫───┤";
    }
    lines.push("└──────────────────────┴───╨───┘".to_string());
    lines.join("\n")
}

fn policy(outcome: Outcome) -> u8 {
    match outcome {
        Outcome::Record(bytes) => bytes[4],
        refused => panic!("{refused:?}"),
    }
}

#[test]
fn the_fare_sheet() {
    let sheet = include_bytes!("../../samples/fare.txt");
    let expected = include_bytes!("../../samples/fare.expected");
    assert_eq!(judge_sheet(sheet, 130).expect("agreed").print(), expected);
    assert_eq!(judge_sheet(sheet, 129), Ok(told(27, 130, 0)));
}

#[test]
fn characters_not_found() {
    assert_eq!(answer(""), told(3, 9484, 0));
    assert_eq!(answer("┌"), told(3, 9573, 0));
    assert_eq!(answer("┌╥┐"), told(3, 9580, 0));
}

#[test]
fn ill_formed_bytes() {
    assert_eq!(judge_sheet(b"\xE2\x94\x8C\xE2\x94", ALL), Ok(told(1, 3, 0)));
    assert_eq!(judge_sheet(b"\xFF", ALL), Ok(told(1, 0, 0)));
}

#[test]
fn policies() {
    let all = ["U", "A", "P", "F", "R", "O", "C", "C+", "C#", "C<", "C>"];
    for (number, letters) in all.iter().enumerate() {
        assert_eq!(policy(answer(&row_sheet(letters, &["1"]))), number as u8);
    }
    assert_eq!(answer(&row_sheet("c", &["1"])), refused_plainly(16));
}

#[test]
fn rule_numbers() {
    assert_eq!(answer(&row_sheet("U", &["1", "3"])), told(11, 3, 0));
    assert_eq!(answer(&row_sheet("U", &["1", "x"])), refused_plainly(12));
    assert_eq!(answer(&row_sheet("U", &["18446744073709551616"])), refused_plainly(12));
    let largest = Told::Number(u64::MAX);
    assert_eq!(answer(&row_sheet("U", &["18446744073709551615"])), refused(11, largest, 0.into()));
    assert_eq!(policy(answer(&row_sheet("U", &["+1", "002"]))), 0);
}

#[test]
fn a_label_that_is_a_number() {
    let sheet = "┌───╥───┐\n│ a ║ 1 │\n╞═══╬═══╡\n│ 5 ║ 2 │\n├───╫───┤\n│ U ║ 1 │\n└───╨───┘";
    assert_eq!(answer(sheet), told(11, 5, 0));
    assert!(matches!(answer(&sheet.replace('5', "b")), Outcome::Record(_)));
}

#[test]
fn one_output_under_three_clause_rows() {
    let sheet = "┌───┬───╥───┐\n│   │ a ║ b │\n│   ├───╫───┤\n│   │ c ║ d │\n│ U ├───╫───┤
│   │ e ║ f │\n╞═══╪═══╬═══╡\n│ 1 │ g ║ h │\n└───┴───╨───┘";
    assert_eq!(answer(sheet), refused_plainly(24));
}

/// The walk from column 8, row 2 ends at column 4, row 4. The Rust's message calls that place the
/// start point.
#[test]
fn a_frame_that_is_not_closed() {
    let sheet = "┌───┬───┬───╥───┐\n│ U │ a │ d ║ b │\n╞═══╪═══╪═══╬═══╡\n│ 1 │ 2 │   ║ 3 │
├───┼───┘   ║   │\n│ 2 │ 4   5 ║ 3 │\n└───┴───────╨───┘";
    assert_eq!(answer(sheet), told(5, 4, 4));
}

#[test]
fn value_splits() {
    let split = |text: &str| judge_split(text.as_bytes());
    let values = |values: &str, default: &str| {
        let numbers = |text: &str| judge::line::listed(text.as_bytes());
        format!("values {} default {}", numbers(values), numbers(default))
    };
    assert_eq!(split("`Yes`, No"), values("Yes, No", "Yes"));
    assert_eq!(split("***"), values("*", "*"));
    assert_eq!(split("*"), values("", ""));
    assert_eq!(split("*a*, *a*b"), values("a, ab", "a"));
    assert_eq!(split("Yes, No"), "own");
    assert_eq!(judge_split(b"a\xFF"), "refused 1 1 0");
}
