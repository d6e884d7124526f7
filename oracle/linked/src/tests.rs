//! The comparison notices every wrong answer of a port, and none of a right one.

use crate::corpora::{planes, sheets, texts};
use crate::mock::{WRONG, Wrong};
use crate::report::Reached;
use crate::shrink::{Drawn, shrunk};
use crate::workers::Run;
use crate::{edges, rooms};
use judge::count::Counts;
use judge::generate::{Kind, clause_plane, lent_plane, sheet_bytes, sheet_in_prose, split_text};
use judge::lent::Lent;
use judge::outcome::silence_the_rust;
use judge::told::sheet_answer;

const PLANES: u64 = 2_000;
const SHEETS: u64 = 400;
const TEXTS: u64 = 2_000;

/// The mock's faults are those of this thread.
const RUN: Run = Run { seed: 1, jobs: 1 };

fn begin(wrong: Wrong) {
    silence_the_rust();
    WRONG.set(wrong);
}

fn compared_planes(wrong: Wrong) -> Result<Counts, String> {
    begin(wrong);
    planes(RUN, "planes", PLANES, rooms::some, |case| match case % 2 {
        0 => lent_plane(1, case),
        _ => clause_plane(1, case),
    })
}

fn compared_sheets(wrong: Wrong) -> Result<Counts, String> {
    begin(wrong);
    sheets(RUN, "sheets", SHEETS, rooms::some, |case| sheet_bytes(case % 2 == 1, 1, case))
}

fn compared_texts(wrong: Wrong) -> Result<Counts, String> {
    begin(wrong);
    texts(RUN, "texts", TEXTS, rooms::some, |case| split_text(Kind::Splits, 1, case))
}

/// Faults of records and of slices, but for those of a work slice by its number.
const FAULTS: [Wrong; 18] = [
    Wrong::Total,
    Wrong::RecordB,
    Wrong::Front(0),
    Wrong::Front(4),
    Wrong::Front(39),
    Wrong::End(0),
    Wrong::Idle,
    Wrong::Behind,
    Wrong::PastOut,
    Wrong::ShortEarly,
    Wrong::ShortLast,
    Wrong::ShortNever,
    Wrong::ShortLate,
    Wrong::ShortCleared,
    Wrong::TooShortEarly,
    Wrong::TooShortFirst,
    Wrong::TooShortNever,
    Wrong::Touched(28),
];

/// Faults of work slices, by their number.
fn of_works(count: usize) -> impl Iterator<Item = Wrong> {
    (0..count).flat_map(|slice| {
        [Wrong::NotCleared(slice), Wrong::NotClearedBehind(slice), Wrong::PastWork(slice)]
    })
}

/// Faults of refusals with these numbers.
fn of_refusals(numbers: &[u64]) -> impl Iterator<Item = Wrong> {
    numbers.iter().flat_map(|number| {
        [Wrong::N(*number), Wrong::A(*number), Wrong::B(*number), Wrong::Touched(*number)]
    })
}

/// What must be said of a fault in a record or a slice.
fn said(wrong: Wrong) -> String {
    match wrong {
        Wrong::Front(place) => format!("\nbyte {place} is "),
        Wrong::End(_) | Wrong::Idle => "the Rust's is ".to_string(),
        Wrong::Behind | Wrong::PastOut | Wrong::Touched(_) => {
            " of the output slice of ".to_string()
        }
        Wrong::NotCleared(slice) | Wrong::NotClearedBehind(slice) => {
            format!("\nwork slice {slice} is not cleared\n")
        }
        Wrong::PastWork(slice) => format!("\nwork slice {slice} is written behind its end\n"),
        Wrong::ShortCleared => "\nwork slice 0 is changed\n".to_string(),
        _ => "\noutcomes differ\n".to_string(),
    }
}

#[test]
fn right_answers() {
    compared_planes(Wrong::Nothing).expect("no difference");
    compared_sheets(Wrong::Nothing).expect("no difference");
    compared_texts(Wrong::Nothing).expect("no difference");
}

#[test]
fn right_answers_in_prose() {
    begin(Wrong::Nothing);
    sheets(RUN, "sheets", 100, rooms::some, |case| sheet_in_prose(1, case)).expect("no difference");
}

#[test]
fn right_answers_at_the_limits() {
    begin(Wrong::Nothing);
    let inputs = edges::planes();
    let made = |case: u64| inputs[case as usize].clone();
    planes(RUN, "planes", inputs.len() as u64, rooms::edges, made).expect("no difference");
}

#[test]
fn right_answers_by_two_threads() {
    silence_the_rust();
    let run = Run { seed: 2, jobs: 2 };
    planes(run, "planes", 501, rooms::some, |case| clause_plane(2, case)).expect("no difference");
}

#[test]
fn wrong_planes() {
    for wrong in FAULTS.into_iter().chain(of_works(4)) {
        let why = compared_planes(wrong).expect_err(&format!("{wrong:?}"));
        assert!(why.starts_with("planes, case ") && why.contains(&said(wrong)), "{wrong:?}: {why}");
    }
}

#[test]
fn wrong_sheets() {
    for wrong in FAULTS.into_iter().chain(of_works(6)) {
        let why = compared_sheets(wrong).expect_err(&format!("{wrong:?}"));
        assert!(why.contains("\nsheet ") && why.contains(&said(wrong)), "{wrong:?}: {why}");
    }
}

/// All numbers of refusals are compared, also those that the Rust does not tell (18 and 20).
#[test]
fn wrong_refusals_of_planes() {
    let numbers: Vec<u64> = (8..=28).collect();
    for wrong in of_refusals(&numbers) {
        assert!(compared_planes(wrong).is_err(), "{wrong:?}");
    }
}

#[test]
fn wrong_refusals_of_sheets() {
    for wrong in of_refusals(&[1, 3, 4, 20, 27, 28]) {
        assert!(compared_sheets(wrong).is_err(), "{wrong:?}");
    }
}

#[test]
fn wrong_splits() {
    let faults = [
        Wrong::Rewritten,
        Wrong::Length,
        Wrong::From,
        Wrong::To,
        Wrong::Copied,
        Wrong::Front(0),
        Wrong::Behind,
        Wrong::PastOut,
        Wrong::TooShortEarly,
    ];
    for wrong in faults.into_iter().chain(of_refusals(&[1, 27])) {
        let why = compared_texts(wrong).expect_err(&format!("{wrong:?}"));
        assert!(why.contains("\nsplit "), "{why}");
    }
}

/// The numbers in the input that a difference is cut down to.
fn cut_numbers(why: &str) -> usize {
    let (_, shown) = why.split_once("cut down to:\n").expect("an input");
    let line = shown.lines().next().expect("a line");
    line.split(' ').filter(|word| word.parse::<u64>().is_ok()).count()
}

/// Differences are cut down to inputs of few bytes: the mock's faults with the least that shows them.
#[test]
fn cut_sheets() {
    let faults = [
        (Wrong::N(1), 1),
        (Wrong::N(3), 0),
        (Wrong::N(4), 12),
        (Wrong::A(20), 140),
        (Wrong::Total, 75),
        (Wrong::End(0), 75),
        (Wrong::TooShortEarly, 75),
        (Wrong::NotCleared(5), 0),
        (Wrong::ShortLast, 0),
    ];
    for (wrong, most) in faults {
        let why = compared_sheets(wrong).expect_err("a difference");
        assert!(cut_numbers(&why) <= 1 + most, "{wrong:?}: {why}");
    }
}

#[test]
fn cut_planes() {
    let faults = [
        (Wrong::N(8), 0),
        (Wrong::N(10), 1),
        (Wrong::N(26), 1),
        (Wrong::A(11), 15),
        (Wrong::Front(0), 27),
        (Wrong::A(28), 0),
    ];
    for (wrong, most) in faults {
        let why = compared_planes(wrong).expect_err("a difference");
        assert!(cut_numbers(&why) <= 6 + most, "{wrong:?}: {why}");
    }
}

#[test]
fn cut_texts() {
    for (wrong, most) in [(Wrong::N(1), 1), (Wrong::From, 1), (Wrong::A(27), 3), (Wrong::Copied, 1)]
    {
        let why = compared_texts(wrong).expect_err("a difference");
        assert!(cut_numbers(&why) <= 1 + most, "{wrong:?}: {why}");
    }
}

/// What is cut down is cut as far as it goes, whatever it shows.
#[test]
fn cut_as_far_as_it_goes() {
    let sheet = Drawn(sheet_bytes(false, 1, 1));
    let has =
        |text: &'static str| move |sheet: &Drawn| String::from_utf8_lossy(&sheet.0).contains(text);
    assert_eq!(shrunk(sheet.clone(), has("╬")).0, "╬".as_bytes());
    let two = |sheet: &Drawn| sheet.0.iter().filter(|byte| **byte == b'\n').count() >= 2;
    assert_eq!(shrunk(sheet, two).0, b"\n\n");
    let plane = clause_plane(1, 1);
    let cells = |lent: &Lent| !lent.is_refused() && lent.kinds.contains(&5);
    let (row_lengths, kinds, regions) = (vec![1], vec![5], vec![0]);
    assert_eq!(shrunk(plane, cells), Lent { row_lengths, kinds, regions, ..Lent::default() });
}

/// What is made at a limit is at it: taken, or refused for it where it is one over.
#[test]
fn inputs_at_the_limits() {
    silence_the_rust();
    let sheets = edges::sheets();
    let over = ["2", "2", "7 rows", "7 cells", "7 regions", "7 texts", "record"];
    for (index, sheet) in sheets[sheets.len() - 8 * over.len()..].iter().enumerate() {
        let name = sheet_answer(sheet).expect("the judge agrees with the Rust").name();
        match (index % 2, over[index / 8]) {
            (1, "record") | (0, _) => assert!(name.starts_with("record"), "{index}: {name}"),
            (_, limit) => assert_eq!(name, format!("refused {limit}"), "{index}"),
        }
    }
    // a plane may be turned, so that its rows are its cells
    let over = [["rows", "cells"], ["cells", "rows"], ["regions"; 2], ["bytes"; 2]];
    let planes = edges::planes();
    let mut causes = vec![];
    for (index, lent) in planes[planes.len() - 8 * over.len()..].iter().enumerate() {
        let cause = lent.cause();
        let is_right = cause.map_or(index % 2 == 0, |cause| over[index / 8].contains(&cause));
        assert!(is_right, "{index}: {cause:?}");
        causes.extend(cause);
    }
    assert_eq!(causes.len(), 4 * over.len());
    assert!(over.as_flattened().iter().all(|cause| causes.contains(cause)));
}

/// A refusal that is reached too seldom is told, and one that is reached against its law.
#[test]
fn refusals_reached() {
    let (table, wrong) = Reached::default().told();
    assert!(table.contains("clauses OnlyTwoSizes.only_two_sizes"));
    let seldom = "23 (no output clause) is reached 0 times by the reader: too seldom";
    assert!(wrong.iter().any(|line| line == seldom), "{wrong:?}");
    let mut reached = Reached::default();
    for name in ["refused 25 3", "refused 26 rows", "refused 28 9"] {
        reached.0[0].add(name);
    }
    let (_, wrong) = reached.told();
    assert_eq!(wrong.iter().filter(|line| line.ends_with("against its law")).count(), 3);
}
