//! Lent planes in lines: their bytes, and what is answered to them.

use judge::generate::hand_planes::{CHANGES, FAULTS, SHEETS, changed, full, lent, planes};
use judge::generate::{Kind, generate};
use judge::lent::Lent;
use judge::line::answer;
use judge::outcome::{Judged, silence_the_rust};
use judge::packed::{pack, unpack};
use judge::told::plane_answer;
use judge::upright::{judge_upright, upright_of};

/// The first line of the answer to a plane.
fn head(lent: &Lent) -> String {
    let lines = String::from_utf8(judge_upright(lent)).expect("a text");
    lines.lines().next().expect("a line").to_string()
}

fn answered(line: &str) -> Judged<String> {
    let mut out = vec![];
    answer(&mut out, line)?;
    Ok(String::from_utf8(out).expect("a text"))
}

#[test]
fn sheets_made_by_hand() {
    for (rows, expected) in SHEETS {
        assert_eq!(head(&lent(rows)), expected, "{rows:?}");
    }
}

/// The condition of each 10, in the order of the list.
#[test]
fn conditions_of_ten() {
    silence_the_rust();
    let name = |rows: &[&str]| {
        let lent = lent(rows);
        plane_answer(&lent, &upright_of(&lent)).expect("the judge agrees with the Rust").name()
    };
    let names: Vec<String> = SHEETS.iter().map(|(rows, _)| name(rows)).collect();
    let tens: Vec<&str> =
        names.iter().filter_map(|name| name.strip_prefix("refused 10 ")).collect();
    assert_eq!(tens[..8], ["P7", "P1", "P2", "P3", "P3", "P4", "P5", "P6"]);
}

#[test]
fn changes_of_the_fare_sheet() {
    let mut causes = vec![];
    for (cause, change) in FAULTS {
        assert_eq!(head(&changed(change)), "refused 26 0 0", "{cause}");
        causes.push(changed(change).cause().expect("a cause"));
    }
    let counts = ["cell-counts"; 3].into_iter().chain(["part-counts"; 2]);
    let parts = ["kind", "region", "part", "part", "utf-8", "part"];
    let expected = ["rows", "cells", "regions"].into_iter().chain(counts).chain(parts);
    assert_eq!(causes, expected.collect::<Vec<_>>());
    let fare = judge_upright(&changed(|_| ()));
    for (what, change) in CHANGES {
        assert_eq!(judge_upright(&changed(change)), fare, "{what}");
    }
}

#[test]
fn full_planes() {
    for is_turned in [false, true] {
        let lines = String::from_utf8(judge_upright(&full(is_turned))).expect("a text");
        let lines: Vec<&str> = lines.lines().collect();
        assert_eq!(lines[0], format!("upright {} 2 62", u32::from(is_turned)));
        assert_eq!((lines[1], lines.len()), ("plane 64", 66));
        assert!(lines[2..].iter().all(|row| row.starts_with("63 ")));
    }
}

#[test]
fn upright_sheets() {
    let rows = "plane 33 0 3 2 2 2 0 6 0 1 3 5 0 1 0 6 0 9 9 9 1 9 0 2 0 1 0 2 1 1 0 2 85 49";
    assert_eq!(answered(rows).as_deref(), Ok("upright 0 0 1\nplane 3\n1 1\n1 5\n1 1\n"));
    let turned =
        "upright 1 5 2\nplane 4\n5 0 1 24 2 48\n5 3 5 3 6 3\n5 8 1 32 2 56\n5 16 1 40 2 64\n";
    assert_eq!(judge_upright(&lent(SHEETS[3].0)), turned.as_bytes());
}

#[test]
fn bytes_of_planes() {
    for lent in planes() {
        assert_eq!(unpack(&pack(&lent).expect("narrow")), Some(lent));
    }
    let wide = Lent { row_lengths: vec![256], ..Lent::default() };
    assert_eq!(pack(&wide), None);
    let long = Lent { bytes: vec![0; 65_536], ..Lent::default() };
    assert_eq!(pack(&long), None);
    let none = pack(&Lent::default()).expect("narrow");
    assert_eq!(none, [0; 12]);
    assert_eq!(unpack(&none[1..]), None);
    assert_eq!(unpack(&[none.as_slice(), &[0]].concat()), None);
    // the high byte of a count stands first
    assert_eq!(unpack(&[1, 0]), None);
    let rows = [[1, 0].as_slice(), &[7; 256], &none[2..]].concat();
    assert_eq!(unpack(&rows).map(|lent| lent.row_lengths), Some(vec![7; 256]));
}

#[test]
fn lines_that_are_generated() {
    for case in 0..1_000 {
        let line = String::from_utf8(generate(Kind::LentLines, 1, case)).expect("a text");
        let answer = answered(line.trim_end()).expect("a plane");
        assert!(answer.starts_with("refused ") || answer.starts_with("upright "), "{line}");
    }
    assert_eq!(generate(Kind::HandLines, 1, 1_000), b"");
}
