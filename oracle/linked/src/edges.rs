//! Inputs at the limits, by construction.

use judge::generate::damage::BAD_BYTES;
use judge::generate::draw;
use judge::generate::edges::{EDGES, picture};
use judge::generate::planes::{LIMITS, at_limit};
use judge::generate::random::Random;
use judge::lent::Lent;
use judge::limits::TEXT_BYTES;

const SAMPLE: &[u8] = include_bytes!("../../samples/fare.txt");

/// Sheets of each sort at a limit, and one over it.
const EACH: u64 = 4;

/// The sample, sheets without anything, and sheets at each limit and one over it: 96 and 97 rows, 160 and 161 columns, 64 and 65 plane
/// rows and cells, 1,024 and 1,025 corners, texts and records of 61,440 and 61,441 bytes.
pub fn sheets() -> Vec<Vec<u8>> {
    let mut sheets: Vec<Vec<u8>> = ["", "\n", " ", "┌", "┌\n"].map(|text| text.into()).to_vec();
    sheets.push(SAMPLE.to_vec());
    for (index, edge) in EDGES.into_iter().enumerate() {
        for variant in 0..2 * EACH {
            let random = &mut Random::of(&[index as u64, variant]);
            let picture = picture(random, edge, variant % 2 == 1);
            sheets.push(draw::text(&picture).into_bytes());
        }
    }
    sheets
}

/// The sample with ill-formed bytes of each sort at each place, put between or instead, and cut at each place.
pub fn ill_formed() -> Vec<Vec<u8>> {
    let mut sheets = vec![];
    for place in 0..=SAMPLE.len() {
        sheets.push(SAMPLE[..place].to_vec());
        for bad in BAD_BYTES {
            let (before, behind) = SAMPLE.split_at(place);
            sheets.push([before, bad, behind].concat());
            sheets.push([before, bad, behind.get(bad.len()..).unwrap_or_default()].concat());
        }
    }
    sheets
}

/// Planes without anything, and planes at each limit and one over it: 64 and 65 rows and cells, 1,024 and 1,025 regions, 61,440 and
/// 61,441 bytes.
pub fn planes() -> Vec<Lent> {
    let mut planes = vec![Lent::default()];
    planes.push(Lent { row_lengths: vec![0], ..Lent::default() });
    planes.push(Lent { offsets: vec![0], lengths: vec![0], ..Lent::default() });
    for limit in 0..LIMITS {
        for variant in 0..2 * EACH {
            let random = &mut Random::of(&[limit as u64, variant]);
            planes.push(at_limit(random, limit, variant as usize % 2));
        }
    }
    planes
}

/// Texts without anything, and with as many bytes as a sheet's texts may have, and one more.
pub fn texts() -> Vec<Vec<u8>> {
    let long = |unit: &str, bytes: usize| unit.bytes().cycle().take(bytes).collect::<Vec<u8>>();
    let mut texts: Vec<Vec<u8>> = ["", "*", "**", "`Yes`, No"].map(|text| text.into()).to_vec();
    for bytes in [TEXT_BYTES, TEXT_BYTES + 1] {
        texts.extend(["a", "*", "*a*, b,", "*a", "é"].map(|unit| long(unit, bytes)));
    }
    texts
}
