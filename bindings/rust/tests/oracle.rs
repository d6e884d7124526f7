//! The bindings against the unchanged Rust: the sample, sheets and planes made by hand, and generated ones.

use fezandimo::{LentPlane, Reader, Refusal, Split, split_values};
use judge::generate::hand_drawings::drawings;
use judge::generate::hand_planes::planes;
use judge::generate::{Kind, clause_plane, lent_plane, sheet_bytes, sheet_in_prose, split_text};
use judge::lent::Lent;
use judge::outcome::{Outcome, Told, silence_the_rust};
use judge::record::print;
use judge::split::{self, split_of};
use judge::told::{plane_answer, sheet_answer};
use judge::upright::upright_of;

/// What stands in the output slice before a call.
const MARK: u8 = 0xA5;
/// Bytes of the output slice behind a record.
const BEHIND: usize = 7;

fn is_unchanged(out: &[u8]) -> bool {
    out.iter().all(|byte| *byte == MARK)
}

fn number(told: Told) -> u64 {
    match told {
        Told::Number(number) => number,
        Told::Unknown => panic!("all numbers are told"),
    }
}

/// What the Rust comes to, as the bindings tell it.
fn told(outcome: Outcome) -> Result<Vec<u8>, Refusal> {
    match outcome {
        Outcome::Record(bytes) => Ok(bytes),
        Outcome::Refused(n, a, b) => Err(Refusal { n: n.into(), a: number(a), b: number(b) }),
    }
}

/// Compares what is read with an output slice longer than the record, one exactly as long, and one a byte short.
fn compare(rust: Outcome, shown: &str, mut read: impl FnMut(&mut [u8]) -> Result<usize, Refusal>) {
    let rust = told(rust);
    let bytes = rust.as_ref().map_or(0, Vec::len);
    for room in [bytes + BEHIND, bytes] {
        let mut out = vec![MARK; room];
        let port = read(&mut out).map(|count| out[..count].to_vec());
        assert_eq!(port, rust, "{shown}");
        assert!(is_unchanged(&out[bytes..]), "{shown}");
    }
    if bytes > 0 {
        let mut out = vec![MARK; bytes - 1];
        let refusal = Refusal { n: Refusal::OUTPUT_SLICE_SHORT, a: bytes as u64, b: 0 };
        assert_eq!(read(&mut out), Err(refusal), "{shown}");
        assert!(is_unchanged(&out), "{shown}");
    }
}

fn compare_sheet(reader: &mut Reader, sheet: &[u8]) {
    let rust = sheet_answer(sheet).expect("the judge agrees with the Rust").outcome;
    compare(rust, &String::from_utf8_lossy(sheet), |out| reader.read_sheet(sheet, out));
}

#[test]
fn the_fare_sheet() {
    let sheet = include_bytes!("../../../oracle/samples/fare.txt");
    let expected = include_bytes!("../../../oracle/samples/fare.expected");
    let mut out = [0; 200];
    let count = Reader::new().read_sheet(sheet, &mut out).expect("a record");
    assert_eq!(print(&out[..count]), expected);
    compare_sheet(&mut Reader::new(), sheet);
}

#[test]
fn sheets() {
    silence_the_rust();
    let mut reader = Reader::new();
    for sheet in drawings() {
        compare_sheet(&mut reader, sheet.as_bytes());
    }
    for case in 0..60 {
        compare_sheet(&mut reader, &sheet_bytes(false, 1, case));
        compare_sheet(&mut reader, &sheet_bytes(true, 1, case));
    }
    for case in 0..10 {
        compare_sheet(&mut reader, &sheet_in_prose(1, case));
    }
}

/// The numbers of a list, where they all fit.
fn narrow<N: TryFrom<u64>>(numbers: &[u64]) -> Option<Vec<N>> {
    numbers.iter().map(|number| N::try_from(*number).ok()).collect()
}

/// Compares a lent plane; nothing where its numbers do not fit the lists.
fn compare_plane(reader: &mut Reader, lent: &Lent) -> Option<()> {
    let plane = LentPlane {
        rows: &narrow(&lent.row_lengths)?,
        kinds: &narrow(&lent.kinds)?,
        regions: &narrow(&lent.regions)?,
        offsets: &narrow(&lent.offsets)?,
        sizes: &narrow(&lent.lengths)?,
        bytes: &lent.bytes,
    };
    let rust = plane_answer(lent, &upright_of(lent)).expect("the judge agrees with the Rust");
    compare(rust.outcome, &lent.line(), |out| reader.read_lent_plane(&plane, out));
    Some(())
}

#[test]
fn lent_planes() {
    silence_the_rust();
    let mut reader = Reader::new();
    let generated = (0..200).flat_map(|case| [lent_plane(1, case), clause_plane(1, case)]);
    let compared =
        planes().into_iter().chain(generated).filter_map(|lent| compare_plane(&mut reader, &lent));
    assert!(compared.count() > 400);
}

/// What the Rust's split comes to, as the bindings tell it; 27 where the scratch slice has too few bytes.
fn told_split(rust: &split::Split, room: usize) -> Result<Split<'_, '_>, Refusal> {
    let refused = |n, a: usize| Err(Refusal { n, a: a as u64, b: 0 });
    match rust {
        split::Split::Own => Ok(Split::Own),
        split::Split::IllFormed(place) => refused(1, *place),
        split::Split::Values(values, _) if values.len() > room => {
            refused(Refusal::OUTPUT_SLICE_SHORT, values.len())
        }
        split::Split::Values(values, default) => {
            Ok(Split::Rewritten { values: values.as_bytes(), default: default.as_bytes() })
        }
    }
}

/// Compares a split with a scratch slice as long as the text, one as long as the values, and one a byte short.
fn compare_split(text: &[u8]) {
    let rust = split_of(text);
    let bytes = match &rust {
        split::Split::Values(values, _) => values.len(),
        _ => 0,
    };
    for room in [text.len(), bytes, bytes.saturating_sub(1)] {
        let mut scratch = vec![MARK; room];
        assert_eq!(split_values(text, &mut scratch), told_split(&rust, room), "{text:?}");
    }
}

#[test]
fn value_splits() {
    for text in ["`Yes`, No", "***", "*", "*a*, *a*b", "", "a, b"] {
        compare_split(text.as_bytes());
    }
    for case in 0..500 {
        compare_split(&split_text(Kind::Splits, 1, case));
        compare_split(&split_text(Kind::LongSplits, 1, case));
    }
}
