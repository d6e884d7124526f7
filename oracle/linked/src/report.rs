//! Which refusals of document 01 were reached by which entry, and which cannot be.

use judge::count::Counts;

/// The least times that each reachable refusal must be reached.
const LEAST: usize = 100;

/// What the run expects of an outcome in an entry.
#[derive(Debug, Clone, Copy, PartialEq, Eq)]
pub enum Reach {
    /// At least `LEAST` times.
    Yes,
    /// Never, by a law or a definition.
    No(&'static str),
    /// Not found, and no law excludes it: a count is no fault, nor is none.
    Open(&'static str),
}

use Reach::{No, Open, Yes};

/// The laws and definitions, by crate.
const NOT_LENT: Reach =
    No("builder SheetEnd.sheet_end, which read_sheet promises: lent_of alone gives 26");
const NOT_DRAWN: Reach = No(
    "builder::lent_builder LentEnd.lent_end, which read_lent_plane promises: lent_of and stated_policy give 8 to 26 alone",
);
const NOT_SPLIT: Reach =
    No("values::utils Split.split_of, which split_values promises: 1 and 27 alone");
const NO_SPLIT: Reach = No("an answer of the split");
const TWO_SIZES: Reach = No("clauses OnlyTwoSizes.only_two_sizes: checks 8 and 12 alone");
const FOUR: Reach = No("builder::lent_builder LentEnd.lent_sizes: four work slices");
const SIX: Reach = No("builder SheetEnd.sheet_sizes: six work slices");
const HAS_ROW: Reach =
    No("policies DrawnNotEmpty.walked_not_empty: the main crossing has a line row");
const HAS_CORNERS: Reach =
    No("policies DrawnNotEmpty.drawn_placement: each row of a drawing's plane has cells");
const HAS_CELLS: Reach =
    No("policies DrawnNotEmpty.drawn-numbers: each row of a drawing's plane has cells");
const ONE_LINE: Reach =
    Open("no law; none was found, and docs/EVIDENCE.md tells why none is expected");

/// A refusal: its name in the counts, what it means, and its reach by the reader, the lent plane and the split.
type Row = (&'static str, &'static str, [Reach; 3]);

const ROWS: [Row; 60] = [
    ("record rows", "", [Yes, Yes, NOT_SPLIT]),
    ("record columns", "", [Yes, Yes, NOT_SPLIT]),
    ("own", "the text's own values", [NO_SPLIT, NO_SPLIT, Yes]),
    ("values", "values and a default", [NO_SPLIT, NO_SPLIT, Yes]),
    ("1", "ill-formed UTF-8", [Yes, NOT_DRAWN, Yes]),
    ("2", "canvas over its limit", [Yes, NOT_DRAWN, NOT_SPLIT]),
    ("3", "characters not found", [Yes, NOT_DRAWN, NOT_SPLIT]),
    ("4", "character not allowed", [Yes, NOT_DRAWN, NOT_SPLIT]),
    ("5", "frame not closed", [Yes, NOT_DRAWN, NOT_SPLIT]),
    ("6", "no region contains the frame", [Yes, NOT_DRAWN, NOT_SPLIT]),
    ("7 regions", "over 1,024 regions", [Yes, NOT_DRAWN, NOT_SPLIT]),
    ("7 texts", "over 61,440 text bytes", [Yes, NOT_DRAWN, NOT_SPLIT]),
    ("7 rows", "over 64 plane rows", [Yes, NOT_DRAWN, NOT_SPLIT]),
    ("7 cells", "over 64 cells in a plane row", [Yes, NOT_DRAWN, NOT_SPLIT]),
    ("8", "plane has no rows", [HAS_ROW, Yes, NOT_SPLIT]),
    ("9", "no main crossing", [Yes, Yes, NOT_SPLIT]),
    ("10 P1", "panic: row 0 has no cells", [HAS_CORNERS, Yes, NOT_SPLIT]),
    ("10 P2", "panic: last row has no cells", [HAS_CORNERS, Yes, NOT_SPLIT]),
    ("10 P3", "panic: no double line in column 0", [Yes, Yes, NOT_SPLIT]),
    ("10 P4", "panic: column 0 ends in the numbers", [HAS_CELLS, Yes, NOT_SPLIT]),
    ("10 P5", "panic: no double line in the last row", [Yes, Yes, NOT_SPLIT]),
    ("10 P6", "panic: cannot be turned", [Yes, Yes, NOT_SPLIT]),
    ("10 P7", "panic: annotation crossing not right", [Yes, Yes, NOT_SPLIT]),
    ("10 P8", "panic: row 0 ends before outputs", [Yes, Yes, NOT_SPLIT]),
    ("10 P9", "panic: row 0 ends before annotations", [Yes, Yes, NOT_SPLIT]),
    ("11", "rule number out of sequence", [Yes, Yes, NOT_SPLIT]),
    ("12", "expected left-below", [Yes, Yes, NOT_SPLIT]),
    ("13", "expected top-left", [Yes, Yes, NOT_SPLIT]),
    ("14", "expected right-after", [Yes, Yes, NOT_SPLIT]),
    ("15", "expected bottom-left", [Yes, Yes, NOT_SPLIT]),
    ("16", "expected no numbers", [Yes, Yes, NOT_SPLIT]),
    ("17", "crosstab", [Yes, Yes, NOT_SPLIT]),
    ("18", "cell out of range", [Yes, Yes, NOT_SPLIT]),
    ("19", "cell not a region", [Yes, Yes, NOT_SPLIT]),
    ("20", "clause rows not 1 to 3", [Yes, Yes, NOT_SPLIT]),
    ("21", "input expressions, three rows", [Yes, Yes, NOT_SPLIT]),
    ("22", "output expressions, three rows", [Yes, Yes, NOT_SPLIT]),
    ("23", "no output clause", [Yes, Yes, NOT_SPLIT]),
    ("24", "too many output rows", [Yes, Yes, NOT_SPLIT]),
    ("25 8", "size: input entries", [Yes, Yes, NOT_SPLIT]),
    ("25 12", "size: annotation entries", [ONE_LINE, Yes, NOT_SPLIT]),
    ("25 *", "size: checks 1 to 7, 9 to 11, 13", [TWO_SIZES, TWO_SIZES, NOT_SPLIT]),
    ("26 rows", "lent: over 64 rows", [NOT_LENT, Yes, NOT_SPLIT]),
    ("26 cells", "lent: over 64 cells in a row", [NOT_LENT, Yes, NOT_SPLIT]),
    ("26 regions", "lent: over 1,024 regions", [NOT_LENT, Yes, NOT_SPLIT]),
    ("26 bytes", "lent: over 61,440 bytes", [NOT_LENT, Yes, NOT_SPLIT]),
    ("26 cell-counts", "lent: cell slices of other lengths", [NOT_LENT, Yes, NOT_SPLIT]),
    ("26 part-counts", "lent: offset and length counts", [NOT_LENT, Yes, NOT_SPLIT]),
    ("26 kind", "lent: unknown kind", [NOT_LENT, Yes, NOT_SPLIT]),
    ("26 region", "lent: unknown region", [NOT_LENT, Yes, NOT_SPLIT]),
    ("26 part", "lent: part outside the bytes", [NOT_LENT, Yes, NOT_SPLIT]),
    ("26 utf-8", "lent: part not UTF-8", [NOT_LENT, Yes, NOT_SPLIT]),
    ("27", "record or split slice too short", [Yes, Yes, Yes]),
    ("28 0", "work slice 0 too short", [Yes, Yes, NOT_SPLIT]),
    ("28 1", "work slice 1 too short", [Yes, Yes, NOT_SPLIT]),
    ("28 2", "work slice 2 too short", [Yes, Yes, NOT_SPLIT]),
    ("28 3", "work slice 3 too short", [Yes, Yes, NOT_SPLIT]),
    ("28 4", "work slice 4 too short", [Yes, FOUR, NOT_SPLIT]),
    ("28 5", "work slice 5 too short", [Yes, FOUR, NOT_SPLIT]),
    ("28 *", "another slice", [SIX, FOUR, NOT_SPLIT]),
];

/// The counts of the three entries: the reader, the lent plane and the split.
#[derive(Debug, Default)]
pub struct Reached(pub [Counts; 3]);

impl Reached {
    /// The times that an outcome was reached by an entry: of a `*` those that no other row names.
    fn times(&self, entry: usize, name: &str) -> usize {
        let counts = &self.0[entry];
        match name.strip_suffix('*') {
            None if counts.of(name) > 0 => counts.of(name),
            None => counts.of(&format!("refused {name}")),
            Some(number) => {
                let start = format!("refused {number}");
                let is_row = |name: &str| ROWS.iter().any(|row| name[8..] == *row.0);
                counts.sum(|name| name.starts_with(&start) && !is_row(name))
            }
        }
    }

    /// The table, and what is wrong with it.
    pub fn told(&self) -> (String, Vec<String>) {
        let mut table = line(["number", "meaning", "reader", "lent plane", "split"]);
        let (mut wrong, mut laws) = (vec![], vec![]);
        for (name, meaning, reaches) in ROWS {
            let cells = [0, 1, 2].map(|entry| {
                let times = self.times(entry, name);
                let fault = match reaches[entry] {
                    Yes if times < LEAST => "too seldom",
                    No(_) if times > 0 => "against its law",
                    No(law) => return format!("unreachable:{}", place(&mut laws, law)),
                    Open(law) if times == 0 => return format!("open:{}", place(&mut laws, law)),
                    _ => return times.to_string(),
                };
                let entry = ENTRIES[entry];
                wrong.push(format!(
                    "{name} ({meaning}) is reached {times} times by the {entry}: {fault}"
                ));
                times.to_string()
            });
            table += &line([name, meaning, &cells[0], &cells[1], &cells[2]]);
        }
        for (index, law) in laws.iter().enumerate() {
            table += &format!("{}: {law}\n", index + 1);
        }
        (table, wrong)
    }
}

const ENTRIES: [&str; 3] = ["reader", "lent plane", "split"];

fn line([name, meaning, reader, lent, split]: [&str; 5]) -> String {
    format!("{name:<15} {meaning:<38} {reader:>15} {lent:>15} {split:>15}\n")
}

/// The place of a law among those that are named, from 1.
fn place(laws: &mut Vec<&'static str>, law: &'static str) -> usize {
    let known = laws.iter().position(|known| *known == law);
    1 + known.unwrap_or_else(|| {
        laws.push(law);
        laws.len() - 1
    })
}
