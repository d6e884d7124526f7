//! The enumerated texts for the value split.

use judge::generate::{Kind, generate};
use std::collections::BTreeSet;

fn first(kind: Kind, count: u64) -> BTreeSet<Vec<u8>> {
    (0..count).map(|case| generate(kind, 1, case)).collect()
}

/// All texts of at most three of the seven letters, and of at most two of the twelve bytes.
#[test]
fn each_short_text_once() {
    assert_eq!(first(Kind::ShortSplits, 1 + 7 + 49 + 343).len(), 400);
    assert_eq!(first(Kind::ShortBytes, 1 + 12 + 144).len(), 157);
    assert_eq!(generate(Kind::ShortSplits, 1, 0), b"split 0\n");
    assert_eq!(generate(Kind::ShortSplits, 1, 56), b"split 6 233 171 152 233 171 152\n");
}
