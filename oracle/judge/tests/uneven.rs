//! The uneven drawings come to the refusals that they aim at.

use judge::generate::uneven::DRAWINGS;
use judge::outcome::silence_the_rust;
use judge::told::sheet_answer;

#[test]
fn uneven_drawings() {
    silence_the_rust();
    for (name, rows) in DRAWINGS {
        let answer =
            sheet_answer(rows.join("\n").as_bytes()).expect("the judge agrees with the Rust");
        assert_eq!(answer.name(), name, "{rows:?}");
    }
}
