//! Every plane of a size, over the kinds and a few texts.

use judge::lent::Lent;

/// The texts of the small planes: kind 0 with each of them, and the kinds 1 to 7.
const TEXTS: [&str; 8] = ["U", "C+", "1", "2", "3", "x", "", "5"];
const CHOICES: u64 = TEXTS.len() as u64 + 7;

/// How many planes of a size there are.
pub fn count(rows: usize, columns: usize) -> u64 {
    CHOICES.pow((rows * columns) as u32)
}

/// Small plane number k, of some rows and columns: its cells are the digits of k.
pub fn plane(rows: usize, columns: usize, mut k: u64) -> Lent {
    let mut lent = Lent { row_lengths: vec![columns as u64; rows], ..Lent::default() };
    for text in TEXTS {
        lent.offsets.push(lent.bytes.len() as u64);
        lent.lengths.push(text.len() as u64);
        lent.bytes.extend(text.as_bytes());
    }
    for _ in 0..rows * columns {
        let digit = k % CHOICES;
        k /= CHOICES;
        let texts = TEXTS.len() as u64;
        let (kind, region) = if digit < texts { (0, digit) } else { (digit - texts + 1, 0) };
        lent.kinds.push(kind);
        lent.regions.push(region);
    }
    lent
}
