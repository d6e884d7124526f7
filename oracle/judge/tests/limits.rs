//! The limits of document 01: sheets that reach them, and sheets one over.

use judge::canvas;
use judge::generate::draw::text;
use judge::generate::edges::{EDGES, Edge, picture};
use judge::generate::random::Random;
use judge::limits::{RECORD_BYTES, TEXT_BYTES};
use judge::outcome::{Outcome, Told};
use judge::sheet::judge_sheet;

const CASES: u64 = 20;

/// The numbers of a refusal, 0 for a record.
fn answer(edge: Edge, over: bool, case: u64) -> (u32, Told, Told) {
    let sheet = text(&picture(&mut Random::of(&[case]), edge, over));
    match judge_sheet(sheet.as_bytes(), RECORD_BYTES).expect("the judge agrees with the Rust") {
        Outcome::Record(bytes) => (0, bytes.len().into(), 0.into()),
        Outcome::Refused(number, a, b) => (number, a, b),
    }
}

#[test]
fn within_the_limits() {
    for edge in EDGES {
        for case in 0..CASES {
            let (number, a, b) = answer(edge, false, case);
            assert!(![2, 7, 27].contains(&number), "{edge:?} {case}: {number} {a} {b}");
        }
    }
}

#[test]
fn records_at_the_limits() {
    for edge in [Edge::PlaneRows, Edge::PlaneCells, Edge::Regions, Edge::TextBytes] {
        assert!((0..CASES).all(|case| answer(edge, false, case).0 == 0), "{edge:?}");
    }
    for case in 0..CASES {
        assert_eq!(answer(Edge::RecordBytes, false, case), (0, RECORD_BYTES.into(), 0.into()));
    }
}

#[test]
fn texts_at_the_limit() {
    for case in 0..CASES {
        let picture = picture(&mut Random::of(&[case]), Edge::TextBytes, false);
        let plane = canvas::plane(&picture).expect("a plane");
        assert_eq!(plane.texts.iter().map(String::len).sum::<usize>(), TEXT_BYTES);
    }
}

/// The answer to a sheet over a limit with the last side of its last row broken.
fn answer_when_broken(edge: Edge) -> u32 {
    let mut picture = picture(&mut Random::of(&[1]), edge, true);
    let row = picture.len() - 2;
    let side = picture[row].iter().rposition(|c| *c == '│').expect("a side");
    picture[row][side] = 'x';
    match judge_sheet(text(&picture).as_bytes(), RECORD_BYTES).expect("agreed") {
        Outcome::Record(_) => 0,
        Outcome::Refused(number, _, _) => number,
    }
}

/// The count of corners comes before the walks of regions, texts and plane come after them.
#[test]
fn limits_and_walks() {
    assert_eq!(answer_when_broken(Edge::Regions), 7);
    assert_eq!(answer_when_broken(Edge::TextBytes), 4);
    assert_eq!(answer_when_broken(Edge::PlaneRows), 4);
    assert_eq!(answer_when_broken(Edge::PlaneCells), 4);
}

#[test]
fn over_the_limits() {
    for case in 0..CASES {
        let (number, rows, _) = answer(Edge::Rows, true, case);
        assert_eq!((number, rows), (2, 97.into()));
        let (number, _, columns) = answer(Edge::Columns, true, case);
        assert_eq!((number, columns), (2, 161.into()));
        for edge in [Edge::PlaneRows, Edge::PlaneCells, Edge::Regions, Edge::TextBytes] {
            assert_eq!(answer(edge, true, case), (7, 0.into(), 0.into()), "{edge:?} {case}");
        }
        let needed = RECORD_BYTES + 1;
        assert_eq!(answer(Edge::RecordBytes, true, case), (27, needed.into(), 0.into()));
    }
}
