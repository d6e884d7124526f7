//! The planes of drawings.

use judge::drawing::{judge_drawing, stage};
use judge::generate::hand_drawings::{DRAWINGS, at_limits};

/// What is printed behind the name of a drawing.
fn plane(text: &str) -> String {
    let mut out = vec![];
    judge_drawing(&mut out, text.as_bytes()).expect("the judge agrees with the Rust");
    let lines = String::from_utf8(out).expect("a text");
    let rest = lines.split_inclusive('\n').skip_while(|line| !line.contains("name"));
    rest.skip(1).collect()
}

#[test]
fn planes_made_by_hand() {
    for (drawing, expected) in DRAWINGS {
        assert_eq!(plane(drawing), expected, "{drawing}");
    }
}

#[test]
fn planes_at_the_limits() {
    for (drawing, expected) in at_limits() {
        assert_eq!(plane(&drawing).lines().next(), Some(expected), "{drawing}");
    }
}

#[test]
fn stages() {
    let stage = |text: &str| stage(text.as_bytes()).expect("the judge agrees with the Rust");
    assert_eq!(stage(DRAWINGS[0].0), "read, without a name");
    assert_eq!(stage(DRAWINGS[6].0), "read, with a name");
    assert_eq!(stage(DRAWINGS[11].0), "refused 3 in plane");
    assert_eq!(stage(&at_limits()[1].0), "refused 7 in plane");
}
