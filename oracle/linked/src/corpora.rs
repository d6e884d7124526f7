//! The inputs of a run.

use crate::compare::{Corpus, Rooms, corpus};
use crate::shrink::Drawn;
use crate::workers::Run;
use crate::{edges, inputs, rooms, small};
use judge::count::Counts;
use judge::generate::hand_drawings::drawings as hand_drawings;
use judge::generate::hand_planes::planes as hand_planes;
use judge::generate::{
    Kind, aimed_sheet, clause_plane, lent_plane, limit_plane, sheet_bytes, sheet_in_prose,
    split_text,
};
use judge::lent::Lent;

/// Compares sheets.
pub fn sheets(
    run: Run,
    what: &str,
    count: u64,
    rooms: Rooms,
    made: impl Fn(u64) -> Vec<u8> + Sync,
) -> Result<Counts, String> {
    let made = |case| Drawn(made(case));
    corpus(run, &Corpus { what, count, made: &made, rooms, fits: |_| true })
}

/// Compares lent planes.
pub fn planes(
    run: Run,
    what: &str,
    count: u64,
    rooms: Rooms,
    made: impl Fn(u64) -> Lent + Sync,
) -> Result<Counts, String> {
    corpus(run, &Corpus { what, count, made: &made, rooms, fits: inputs::fits })
}

/// Compares texts.
pub fn texts(
    run: Run,
    what: &str,
    count: u64,
    rooms: Rooms,
    made: impl Fn(u64) -> Vec<u8> + Sync,
) -> Result<Counts, String> {
    corpus(run, &Corpus { what, count, made: &made, rooms, fits: |_| true })
}

/// Adds up the counts of some corpora.
fn all(corpora: impl IntoIterator<Item = Result<Counts, String>>) -> Result<Counts, String> {
    let mut all = Counts::default();
    for counts in corpora {
        all.add_all(counts?);
    }
    Ok(all)
}

pub fn all_sheets(run: Run, times: u64) -> Result<Counts, String> {
    let hand = hand_drawings();
    let at = |case: u64| hand[case as usize].clone().into_bytes();
    let edges = edges::sheets();
    let (seed, some) = (run.seed, rooms::some as Rooms);
    let ill_formed = edges::ill_formed();
    all([
        sheets(run, "sheets by hand, every room", hand.len() as u64, rooms::edges, at)?,
        sheets(
            run,
            "sheets at the limits, every room",
            edges.len() as u64,
            rooms::edges,
            |case| edges[case as usize].clone(),
        )?,
        sheets(run, "the sample, ill-formed", ill_formed.len() as u64, some, |case| {
            ill_formed[case as usize].clone()
        })?,
        sheets(run, "good sheets", 150_000 * times, some, |case| sheet_bytes(false, seed, case))?,
        sheets(run, "damaged sheets", 200_000 * times, some, |case| sheet_bytes(true, seed, case))?,
        sheets(run, "aimed sheets", 20_000 * times, some, |case| aimed_sheet(seed, case))?,
        sheets(run, "sheets in prose", 2_000 * times, some, |case| sheet_in_prose(seed, case))?,
    ]
    .map(Ok))
}

/// Small planes of a size: all of them, or so many of them where there are more.
fn sized(run: Run, rows: usize, columns: usize, most: u64) -> Result<Counts, String> {
    let every = small::count(rows, columns);
    let spread = |k: u64| (u128::from(k) * 0x9E37_79B9_7F4A_7C15 % u128::from(every)) as u64;
    let is_all = every <= most;
    let what = format!("{} planes of {rows} by {columns}", if is_all { "all" } else { "some" });
    planes(run, &what, every.min(most), rooms::some, |k| {
        small::plane(rows, columns, if is_all { k } else { spread(k) })
    })
}

pub fn all_planes(run: Run, times: u64) -> Result<Counts, String> {
    let hand = hand_planes();
    let at = |case: u64| hand[case as usize].clone();
    let edges = edges::planes();
    let (seed, some) = (run.seed, rooms::some as Rooms);
    let large = [
        planes(run, "planes by hand, every room", hand.len() as u64, rooms::edges, at)?,
        planes(
            run,
            "planes at the limits, every room",
            edges.len() as u64,
            rooms::edges,
            |case| edges[case as usize].clone(),
        )?,
        planes(run, "planes", 600_000 * times, some, |case| lent_plane(seed, case))?,
        planes(run, "planes for the clauses", 150_000 * times, some, |case| {
            clause_plane(seed, case)
        })?,
        planes(run, "planes at a limit", 2_000 * times, some, |case| limit_plane(seed, case))?,
    ];
    let sizes = [(1, 3), (2, 2), (3, 1), (2, 3), (3, 2), (3, 3)];
    let small = sizes.map(|(rows, columns)| sized(run, rows, columns, 1_000_000 * times));
    all(large.map(Ok).into_iter().chain(small))
}

pub fn all_texts(run: Run, times: u64) -> Result<Counts, String> {
    let edges = edges::texts();
    let kinds = [
        ("all short texts", Kind::ShortSplits, 960_800),
        ("all short texts of bytes", Kind::ShortBytes, 22_621),
        ("texts", Kind::Splits, 400_000 * times),
        ("long texts", Kind::LongSplits, 30_000 * times),
    ];
    let at_edges =
        texts(run, "texts at the limits, every room", edges.len() as u64, rooms::edges, |case| {
            edges[case as usize].clone()
        });
    let seeded = kinds.map(|(what, kind, count)| {
        texts(run, what, count, rooms::some, |case| split_text(kind, run.seed, case))
    });
    all([at_edges].into_iter().chain(seeded))
}
