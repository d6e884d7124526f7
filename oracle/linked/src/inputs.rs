//! What is compared: sheets, lent planes and texts.

use crate::port::{self, LENT_SIZES, Lists, SHEET_SIZES, SplitAnswer};
use crate::rooms::Room;
use crate::shrink::{Cut, Drawn};
use crate::slices::{Out, Works};
use judge::generate::line;
use judge::lent::Lent;
use judge::outcome::{Judged, Outcome, Told};
use judge::split::{Split, split_of};
use judge::told::{Answer, plane_answer, sheet_answer};
use judge::upright::upright_of;

/// An input of one of the three entries.
pub trait Input: Cut + Clone {
    /// The least elements of the work slices, and how many of these, the first, are slices of numbers; the others are of bytes.
    const SIZES: &'static [usize];
    const NUMBERS: usize;

    type Rust;

    /// What the Rust answers, where no slice is too short.
    fn rust(&self) -> Judged<Self::Rust>;

    /// The bytes that are written where there is room for them.
    fn written(rust: &Self::Rust) -> Option<&[u8]>;

    /// Calls the port: what its slices must hold then, or both answers where they differ.
    fn call<'a>(&self, rust: &'a Self::Rust, lent: Lending) -> Result<Ended<'a>, String>;

    /// The input as the judge takes it.
    fn shown(&self) -> String;
}

/// The slices of a call.
pub struct Lending<'a> {
    pub room: &'a Room,
    pub works: &'a mut Works,
    pub out: &'a mut Out,
}

/// The name of an answer in the counts, the bytes that must stand in front in the output slice, and whether the work slices must be as
/// they were, not cleared.
pub struct Ended<'a> {
    pub name: String,
    pub written: &'a [u8],
    pub is_kept: bool,
}

/// The bytes of a record.
fn record(rust: &Answer) -> Option<&[u8]> {
    match &rust.outcome {
        Outcome::Record(bytes) => Some(bytes),
        Outcome::Refused(..) => None,
    }
}

/// The numbers that the port must answer.
fn numbers(rust: &Outcome) -> port::Answer {
    let told = |told: &Told| match told {
        Told::Number(number) => *number,
        Told::Unknown => unreachable!("all numbers are told"),
    };
    match rust {
        Outcome::Record(bytes) => port::Answer { n: 0, a: bytes.len() as u64, b: 0 },
        Outcome::Refused(n, a, b) => port::Answer { n: (*n).into(), a: told(a), b: told(b) },
    }
}

/// The end of a call that should come to a record or a refusal.
fn ended<'a>(
    rust: &'a Answer,
    room: &Room,
    sizes: &[usize],
    port: port::Answer,
) -> Result<Ended<'a>, String> {
    let outcome = room.outcome(&rust.outcome, sizes);
    if port != numbers(&outcome) {
        let printed = outcome.print();
        let rust = String::from_utf8_lossy(&printed);
        return Err(format!("the Rust: {rust}the port: {port:?}"));
    }
    let is_kept = matches!(outcome, Outcome::Refused(28, _, _));
    let is_short = outcome != rust.outcome;
    Ok(Ended {
        name: if is_short { Answer::from(outcome).name() } else { rust.name() },
        written: if is_short { &[] } else { record(rust).unwrap_or_default() },
        is_kept,
    })
}

impl Input for Drawn {
    const SIZES: &'static [usize] = &SHEET_SIZES;
    const NUMBERS: usize = 5;

    type Rust = Answer;

    fn rust(&self) -> Judged<Answer> {
        sheet_answer(&self.0)
    }

    fn written(rust: &Answer) -> Option<&[u8]> {
        record(rust)
    }

    fn call<'a>(&self, rust: &'a Answer, lent: Lending) -> Result<Ended<'a>, String> {
        let port = port::read_sheet(&self.0, lent.works, lent.out);
        ended(rust, lent.room, Self::SIZES, port)
    }

    /// A line for `judge answers`, and the text.
    fn shown(&self) -> String {
        let shown = [line("sheet", &self.0), self.0.clone()].concat();
        String::from_utf8_lossy(&shown).into_owned()
    }
}

fn narrow<N: TryFrom<u64>>(numbers: &[u64]) -> Option<Vec<N>> {
    numbers.iter().map(|number| N::try_from(*number).ok()).collect()
}

/// Whether all numbers of a plane fit the port's slices.
pub fn fits(lent: &Lent) -> bool {
    let lists = [&lent.row_lengths, &lent.regions, &lent.offsets, &lent.lengths];
    lists.iter().all(|list| narrow::<u32>(list).is_some()) && narrow::<u8>(&lent.kinds).is_some()
}

impl Input for Lent {
    const SIZES: &'static [usize] = &LENT_SIZES;
    const NUMBERS: usize = 4;

    type Rust = Answer;

    fn rust(&self) -> Judged<Answer> {
        plane_answer(self, &upright_of(self))
    }

    fn written(rust: &Answer) -> Option<&[u8]> {
        record(rust)
    }

    fn call<'a>(&self, rust: &'a Answer, lent: Lending) -> Result<Ended<'a>, String> {
        let numbers = |list: &[u64]| narrow::<u32>(list).expect("numbers that fit");
        let lists = Lists {
            rows: &numbers(&self.row_lengths),
            kinds: &narrow(&self.kinds).expect("kinds that fit"),
            regions: &numbers(&self.regions),
            offsets: &numbers(&self.offsets),
            sizes: &numbers(&self.lengths),
            bytes: &self.bytes,
        };
        let port = port::read_lent_plane(&lists, lent.works, lent.out);
        ended(rust, lent.room, Self::SIZES, port)
    }

    /// A line for `judge planes`.
    fn shown(&self) -> String {
        self.line()
    }
}

/// What the port must answer with a scratch slice of so many bytes, but for the default's place.
fn split_answer(rust: &Split, scratch: usize) -> SplitAnswer {
    let refused = |n, a: usize| SplitAnswer { n, a: a as u64, ..SplitAnswer::default() };
    match rust {
        Split::Own => SplitAnswer::default(),
        Split::IllFormed(place) => refused(1, *place),
        Split::Values(values, _) if values.len() > scratch => refused(27, values.len()),
        Split::Values(values, _) => {
            SplitAnswer { rewritten: 1, length: values.len(), ..SplitAnswer::default() }
        }
    }
}

/// A text for the value split.
impl Input for Vec<u8> {
    const SIZES: &'static [usize] = &[];
    const NUMBERS: usize = 0;

    type Rust = Split;

    fn rust(&self) -> Judged<Split> {
        Ok(split_of(self))
    }

    fn written(rust: &Split) -> Option<&[u8]> {
        match rust {
            Split::Values(values, _) => Some(values.as_bytes()),
            _ => None,
        }
    }

    /// Where the default stands in the text the Rust does not tell.
    fn call<'a>(&self, rust: &'a Split, lent: Lending) -> Result<Ended<'a>, String> {
        let port = port::split_values(self, lent.out);
        let mut answer = split_answer(rust, lent.room.out);
        let mut is_default = true;
        if let Split::Values(_, default) = rust
            && answer.rewritten == 1
        {
            (answer.from, answer.to) = (port.from, port.to);
            is_default = self.get(port.from..port.to) == Some(default.as_bytes());
        }
        if !is_default || port != answer {
            return Err(format!("the Rust: {rust:?}\nthe port: {port:?}"));
        }
        let name = match (answer.n, answer.rewritten) {
            (0, 0) => "own".to_string(),
            (0, _) => "values".to_string(),
            (n, _) => format!("refused {n}"),
        };
        let is_written = answer.rewritten == 1;
        let written = if is_written { Self::written(rust).unwrap_or_default() } else { &[] };
        Ok(Ended { name, written, is_kept: false })
    }

    /// A line for `judge answers`, and the text.
    fn shown(&self) -> String {
        String::from_utf8_lossy(&[line("split", self), self.clone()].concat()).into_owned()
    }
}
