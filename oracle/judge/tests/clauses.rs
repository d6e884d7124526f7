//! The refusals of the clause rules: all numbers are told, and the generated planes come to each of them.

use judge::count::Counts;
use judge::generate::hand_planes::lent;
use judge::generate::{clause_plane, lent_plane, sheet_bytes};
use judge::lent::{Lent, judge_plane};
use judge::outcome::{Outcome, silence_the_rust};
use judge::sheet::judge_sheet;
use judge::told::{Answer, plane_answer, sheet_answer};
use judge::upright::upright_of;

fn answer(lent: &Lent) -> Answer {
    silence_the_rust();
    plane_answer(lent, &upright_of(lent)).expect("the reading agrees with the Rust")
}

/// The numbers of a plane's answer; for a 10, its condition.
fn told(rows: &[&str]) -> String {
    let answer = answer(&lent(rows));
    match (&answer.outcome, answer.condition) {
        (Outcome::Refused(..), Some(_)) => answer.name(),
        (Outcome::Refused(number, a, b), None) => format!("refused {number} {a} {b}"),
        (Outcome::Record(_), _) => "record".to_string(),
    }
}

const SHEETS: [(&[&str], &str); 23] = [
    (&["U a ║ b", "═ ═ ╬ ═", "1 x ║ y"], "record"),
    (&["U a ║ b", "═ ═ ═ ═", "1 x ║ y"], "refused 9 0 0"),
    // P7: left of the main crossing, and in its column
    (&["U a ║ b", "═ ╪ ╬ ═", "1 x ║ y"], "refused 10 P7"),
    (&["U a ║ b", "═ ═ ╬ ═", "1 x ╪ y"], "refused 10 P7"),
    (&["a ║ x", "═ ╬ ═", "b ║ y", "U ║ 1"], "record"),
    (&["a ╫ x", "═ ╬ ═", "b ║ y", "U ║ 1"], "refused 10 P7"),
    (&["U a", "═ ═ ╬ ═", "1 x ║ y"], "refused 10 P8"),
    (&["U a ║ b", "═ ═ ╬ ═ ╪ ═", "1 x ║ y │ z"], "refused 10 P9"),
    (&["U a ║ b │", "═ ═ ╬ ═ ╪ ═", "1 x ║ y │ z"], "record"),
    // in the plane the numbers stand one column further right
    (&["U a ║ b c", "═ ═ ╬ ═ ═", "1 x ║ y"], "refused 18 2 3"),
    (&["U", "═ ═ ╬", "1 x ║"], "refused 10 P8"),
    (&["U a ║ b", "═ ═ ╬ ═", "1 ║ ║ y"], "refused 19 2 0"),
    (&["U ╬ b", "═ ═ ═", "1 ║ y"], "refused 20 0 0"),
    (&["U a ║ b", "x a ║ b", "x a ║ b", "x a ║ b", "═ ═ ╬ ═", "1 x ║ y"], "refused 20 4 0"),
    (&["U a ║ b", "U c ║ p", "U c ║ q", "═ ═ ╬ ═", "1 x ║ y"], "refused 21 0 0"),
    (&["U a ║ b", "U c ║ p", "U d ║ p", "═ ═ ╬ ═", "1 x ║ y"], "refused 22 0 0"),
    (&["U a ║", "═ ═ ╬", "1 x ║"], "refused 23 0 0"),
    (&["U a ║ b", "U c ║ p", "U d ║ q", "═ ═ ╬ ═", "1 x ║ y"], "refused 24 0 0"),
    (&["U a ║ b", "═ ═ ═ ═", "1 ═ ╬ ═", "2 x ║ y"], "refused 19 1 0"),
    (&["U a ║ b", "U ═ ╬ ═", "═ c ║ d", "1 x ║ y"], "refused 25 8 0"),
    (&["U a ║ b │ n", "═ ═ ╬ ═ ═ ═", "1 x ║ y ╪ z", "2 x ║ y │ z"], "refused 25 12 0"),
    // without annotations their rows are not counted
    (&["U a ║ b │", "═ ═ ╬ ═ ═", "1 x ║ y ╪", "2 x ║ y │"], "record"),
    // the first of two
    (&["U a ║ b │ n", "U ═ ╬ ═ ═ ═", "═ c ║ d ╪ m", "1 x ║ y │ z"], "refused 25 8 0"),
];

#[test]
fn sheets_made_by_hand() {
    for (rows, expected) in SHEETS {
        assert_eq!(told(rows), expected, "{rows:?}");
    }
}

/// At least 100 of each outcome in 200,000 planes and 40,000 for the clause rules.
#[test]
fn outcomes_of_planes() {
    const PLANES: u64 = 20_000;
    let mut counts = Counts::default();
    let aimed = (0..PLANES / 5).map(|case| clause_plane(1, case));
    for lent in (0..PLANES).map(|case| lent_plane(1, case)).chain(aimed) {
        counts.add(&answer(&lent).name());
    }
    let plain = (8..=24).filter(|number| *number != 10).map(|number| format!("refused {number}"));
    let conditions = (1..=9).map(|condition| format!("refused 10 P{condition}"));
    let details = ["record rows", "record columns", "refused 25 8", "refused 25 12"];
    for name in plain.chain(conditions).chain(details.map(str::to_string)) {
        assert!(counts.of(&name) >= 10, "{name}\n{counts}");
    }
    assert_eq!(counts.all() as u64, PLANES + PLANES / 5);
}

/// Where no upright sheet is stated, the plane is refused with the same numbers.
#[test]
fn refusals_before_the_clause_rules() {
    silence_the_rust();
    for lent in (0..20_000).map(|case| lent_plane(2, case)) {
        if let Err(refused) = upright_of(&lent) {
            assert_eq!(judge_plane(&lent, usize::MAX), refused, "{}", lent.line());
        }
    }
}

/// The records of sheets are the Rust's, and a refused sheet's numbers are all told.
#[test]
fn answers_to_sheets() {
    silence_the_rust();
    for case in 0..2_000 {
        let sheet = sheet_bytes(case % 2 == 1, 1, case);
        let outcome = judge_sheet(&sheet, usize::MAX).expect("the judge agrees with the Rust");
        let answer = sheet_answer(&sheet).expect("the judge agrees with the Rust");
        let Outcome::Refused(number, _, _) = outcome else {
            assert_eq!(answer.outcome, outcome);
            continue;
        };
        let printed = String::from_utf8(answer.outcome.print()).expect("a text");
        assert!(printed.starts_with(&format!("refused {number} ")), "{printed}");
        assert!(!printed.contains('?'), "{printed}");
    }
}

#[test]
fn records_of_planes() {
    let lent = lent(&["C# a ║ b c", "C# p ║ q *r*,s", "═ ═ ╬ ═ ═", "1 · ║ y z"]);
    let printed = String::from_utf8(answer(&lent).outcome.print()).expect("a text");
    let numbers =
        "bytes 155\npolicy 8\norientation 0\ninputs 1\noutputs 2\nannotations 0\nrules 1\n";
    let texts = [
        "0 absent",
        "1 absent",
        "2 144 1 a",
        "3 145 1 p",
        "4 146 1 b",
        "5 147 1 q",
        "6 absent",
        "7 148 1 c",
        "8 149 3 r,s",
        "9 152 1 r",
        "10 153 0 ",
        "11 153 1 y",
        "12 154 1 z",
    ];
    let slots: String = texts.iter().map(|slot| format!("slot {slot}\n")).collect();
    assert_eq!(printed, format!("{numbers}{slots}"));
}
