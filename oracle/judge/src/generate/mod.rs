//! The seeded generator of sheets, damaged sheets, lent planes, split texts and drawings. Every case has its
//! own random numbers, so that it does not change with the cases before it. Some kinds are lists without seed.

pub mod around;
pub mod clause_planes;
pub mod damage;
pub mod draw;
pub mod edges;
pub mod grid;
pub mod hand_drawings;
pub mod hand_planes;
pub mod planes;
pub mod random;
pub mod shape;
pub mod sheets;
pub mod splits;
pub mod texts;
pub mod uneven;

use crate::lent::Lent;
use crate::line::listed;
use crate::packed::pack;
use random::Random;

/// What is generated.
#[derive(Debug, Clone, Copy, PartialEq, Eq)]
pub enum Kind {
    Sheets,
    Damaged,
    Planes,
    Splits,
    ShortSplits,
    ShortBytes,
    LongSplits,
    Drawings,
    DamagedDrawings,
    LentLines,
    HandLines,
    ClausePlanes,
    InProse,
    Aimed,
    LimitPlanes,
}

impl Kind {
    /// The kind with a name.
    pub fn named(name: &str) -> Option<Self> {
        match name {
            "sheets" => Some(Kind::Sheets),
            "damaged" => Some(Kind::Damaged),
            "planes" => Some(Kind::Planes),
            "splits" => Some(Kind::Splits),
            "short-splits" => Some(Kind::ShortSplits),
            "short-bytes" => Some(Kind::ShortBytes),
            "long-splits" => Some(Kind::LongSplits),
            "drawings" => Some(Kind::Drawings),
            "damaged-drawings" => Some(Kind::DamagedDrawings),
            "lent-lines" => Some(Kind::LentLines),
            "hand-lines" => Some(Kind::HandLines),
            "clause-planes" => Some(Kind::ClausePlanes),
            "in-prose" => Some(Kind::InProse),
            "aimed" => Some(Kind::Aimed),
            "limit-planes" => Some(Kind::LimitPlanes),
            _ => None,
        }
    }

    /// The kind whose random numbers are taken: drawings are the sheets as lines.
    fn source(self) -> Self {
        match self {
            Kind::Drawings => Kind::Sheets,
            Kind::DamagedDrawings => Kind::Damaged,
            kind => kind,
        }
    }
}

/// One case, in the format of its kind.
pub fn generate(kind: Kind, seed: u64, case: u64) -> Vec<u8> {
    let mut random = Random::of(&[kind.source() as u64, seed, case]);
    match kind {
        Kind::Sheets => sheet(sheets::good(&mut random)),
        Kind::Damaged => sheet(damage::damaged(&mut random)),
        Kind::Planes => (planes::plane(&mut random).line() + "\n").into_bytes(),
        Kind::Splits | Kind::ShortSplits | Kind::ShortBytes | Kind::LongSplits => {
            line("split", &split_text(kind, seed, case))
        }
        Kind::Drawings => line("drawing", &sheets::good(&mut random)),
        Kind::DamagedDrawings => line("drawing", &damage::damaged(&mut random)),
        Kind::LentLines => lent_line(&planes::narrow(&mut random)),
        Kind::HandLines => hand_line(case as usize),
        Kind::ClausePlanes => (clause_planes::plane(&mut random).line() + "\n").into_bytes(),
        Kind::InProse => sheet(sheets::in_prose(&mut random)),
        Kind::Aimed => sheet(aimed_sheet(seed, case)),
        Kind::LimitPlanes => (limit_plane(seed, case).line() + "\n").into_bytes(),
    }
}

/// A text for the value split, as `generate` makes it.
pub fn split_text(kind: Kind, seed: u64, case: u64) -> Vec<u8> {
    let mut random = Random::of(&[kind.source() as u64, seed, case]);
    match kind {
        Kind::ShortSplits => splits::short(case),
        Kind::ShortBytes => splits::short_bytes(case),
        Kind::LongSplits => splits::long(&mut random),
        _ => splits::text(&mut random),
    }
}

/// The bytes of a sheet in much prose, as `generate` makes it.
pub fn sheet_in_prose(seed: u64, case: u64) -> Vec<u8> {
    sheets::in_prose(&mut Random::of(&[Kind::InProse.source() as u64, seed, case]))
}

/// A sheet that aims at rare refusals, as `generate` makes it.
pub fn aimed_sheet(seed: u64, case: u64) -> Vec<u8> {
    let random = &mut Random::of(&[Kind::Aimed.source() as u64, seed, case]);
    if random.chance(10) { edges::sheet(random, true) } else { uneven::sheet(random) }
}

/// A lent plane at a limit or one over it, as `generate` makes it.
pub fn limit_plane(seed: u64, case: u64) -> Lent {
    planes::at_limits(&mut Random::of(&[Kind::LimitPlanes.source() as u64, seed, case]))
}

/// A lent plane, as `generate` makes it.
pub fn lent_plane(seed: u64, case: u64) -> Lent {
    planes::plane(&mut Random::of(&[Kind::Planes.source() as u64, seed, case]))
}

/// A lent plane that aims at the clause rules, as `generate` makes it.
pub fn clause_plane(seed: u64, case: u64) -> Lent {
    clause_planes::plane(&mut Random::of(&[Kind::ClausePlanes.source() as u64, seed, case]))
}

/// The bytes of a good or a damaged sheet, as `generate` makes it.
pub fn sheet_bytes(is_damaged: bool, seed: u64, case: u64) -> Vec<u8> {
    let kind = if is_damaged { Kind::Damaged } else { Kind::Sheets };
    let mut random = Random::of(&[kind.source() as u64, seed, case]);
    if is_damaged { damage::damaged(&mut random) } else { sheets::good(&mut random) }
}

/// A drawing or a plane made by hand, as a line; nothing behind the last of them.
fn hand_line(case: usize) -> Vec<u8> {
    let drawings = hand_drawings::drawings();
    match drawings.get(case) {
        Some(drawing) => line("drawing", drawing.as_bytes()),
        None => hand_planes::planes().get(case - drawings.len()).map_or(vec![], lent_line),
    }
}

/// A lent plane that fits, as a line.
fn lent_line(lent: &Lent) -> Vec<u8> {
    line("plane", &pack(lent).expect("numbers of at most 255"))
}

/// A line `KIND N b0 .. b(N-1)`.
pub fn line(kind: &str, bytes: &[u8]) -> Vec<u8> {
    format!("{kind} {}\n", listed(bytes)).into_bytes()
}

fn sheet(bytes: Vec<u8>) -> Vec<u8> {
    let mut out = format!("sheet {}\n", bytes.len()).into_bytes();
    out.extend(bytes);
    out.push(b'\n');
    out
}
