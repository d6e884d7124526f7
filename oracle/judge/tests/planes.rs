//! Lent planes: number 26, rows without cells, texts that are trimmed.

use judge::generate::hand_planes::{CHANGES, FAULTS, changed};
use judge::lent::{Lent, judge_plane};
use judge::outcome::{Outcome, refused_plainly};

/// The plane of the fare sheet, its texts with white space around them.
fn fare() -> Lent {
    let mut lent = Lent {
        row_lengths: vec![4, 4, 4],
        kinds: vec![0, 0, 1, 0, 3, 3, 5, 3, 0, 0, 1, 0],
        regions: vec![0, 1, 9, 2, 9, 9, 9, 9, 3, 4, 9, 5],
        ..Lent::default()
    };
    for text in [" U\u{3000}", "Zone\n", "\tFare", "\u{A0}1", "\"A\" ", "120"] {
        lent.offsets.push(lent.bytes.len() as u64);
        lent.lengths.push(text.len() as u64);
        lent.bytes.extend_from_slice(text.as_bytes());
    }
    lent
}

fn answer(lent: &Lent) -> Outcome {
    judge_plane(lent, 61_440)
}

#[test]
fn texts_are_trimmed() {
    let expected = include_bytes!("../../samples/fare.expected");
    assert_eq!(answer(&fare()).print(), expected);
}

#[test]
fn lines_of_numbers() {
    assert_eq!(Lent::parse(&fare().line()), Ok(fare()));
    assert!(Lent::parse("1 1 1 0 1 0 0 0").is_err());
    assert_eq!(answer(&Lent::parse("0 0 0 0 0 0").expect("a plane")), refused_plainly(8));
}

#[test]
fn rows_without_cells() {
    assert_eq!(answer(&Lent::parse("1 0 0 0 0 0 0").expect("a plane")), refused_plainly(10));
    let mut lent = fare();
    lent.row_lengths.insert(0, 0);
    assert_eq!(answer(&lent), refused_plainly(10));
}

/// Faults that do not fit a line; the others are in `lent_lines.rs`.
#[test]
fn number_26() {
    let changes: [fn(&mut Lent); 3] = [
        |lent| lent.bytes.resize(61_441, b'z'),
        |lent| lent.lengths[0] = u64::MAX,
        |lent| lent.row_lengths[0] = u64::MAX,
    ];
    for (index, change) in changes.iter().enumerate() {
        let mut lent = fare();
        change(&mut lent);
        assert_eq!(answer(&lent), refused_plainly(26), "change {index}");
    }
    for (cause, change) in FAULTS {
        assert_eq!(answer(&changed(change)), refused_plainly(26), "{cause}");
    }
}

/// Faults that are none; the others are in `lent_lines.rs`.
#[test]
fn not_number_26() {
    let mut lent = fare();
    lent.bytes.resize(61_440, b'z');
    assert_eq!(answer(&lent), answer(&fare()));
    for (what, change) in CHANGES {
        assert_eq!(answer(&changed(change)), answer(&changed(|_| ())), "{what}");
    }
}
