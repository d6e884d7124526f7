//! The answer to a lent plane.

use crate::limits::{KINDS, PLANE_CELLS, PLANE_ROWS, REGIONS, TEXT_BYTES};
use crate::line::listed;
use crate::messages::refusal;
use crate::outcome::{Fault, Judged, Outcome, refused_plainly, run};
use crate::sheet::of_components;
use recognizer::plane::{Cell, HitPolicyPlacement, Plane, RuleNumbersPlacement};
use recognizer::rect::Rect;
use recognizer::{DecisionTableOrientation, HitPolicy, Recognizer};

/// The causes of number 26.
pub const CAUSES: [&str; 10] = [
    "rows",
    "cells",
    "regions",
    "bytes",
    "cell-counts",
    "part-counts",
    "kind",
    "region",
    "part",
    "utf-8",
];

/// The slices of a lent plane.
#[derive(Debug, Default, Clone, PartialEq, Eq)]
pub struct Lent {
    pub row_lengths: Vec<u64>,
    pub kinds: Vec<u64>,
    pub regions: Vec<u64>,
    pub offsets: Vec<u64>,
    pub lengths: Vec<u64>,
    pub bytes: Vec<u8>,
}

impl Lent {
    /// Reads a line of numbers.
    pub fn parse(line: &str) -> Judged<Self> {
        let fault = || Fault(format!("not a plane: {line}"));
        let numbers: Option<Vec<u64>> = line.split_whitespace().map(|n| n.parse().ok()).collect();
        let numbers = numbers.ok_or_else(fault)?;
        let mut rest = numbers.as_slice();
        let mut lists = vec![];
        for _ in 0..6 {
            lists.push(counted(&mut rest).ok_or_else(fault)?);
        }
        if !rest.is_empty() {
            return Err(fault());
        }
        Self::of_lists(lists).ok_or_else(fault)
    }

    /// The plane of six lists; nothing where a byte is over 255.
    pub fn of_lists(lists: Vec<Vec<u64>>) -> Option<Self> {
        let lists: [Vec<u64>; 6] = lists.try_into().ok()?;
        let [row_lengths, kinds, regions, offsets, lengths, bytes] = lists;
        let bytes: Option<Vec<u8>> = bytes.iter().map(|byte| u8::try_from(*byte).ok()).collect();
        Some(Self { row_lengths, kinds, regions, offsets, lengths, bytes: bytes? })
    }

    /// The six lists.
    pub fn lists(&self) -> [Vec<u64>; 6] {
        let bytes = self.bytes.iter().map(|byte| u64::from(*byte)).collect();
        let lists = [&self.row_lengths, &self.kinds, &self.regions, &self.offsets, &self.lengths];
        let [row_lengths, kinds, regions, offsets, lengths] = lists.map(Vec::clone);
        [row_lengths, kinds, regions, offsets, lengths, bytes]
    }

    /// The line of numbers.
    pub fn line(&self) -> String {
        self.lists().map(|list| listed(&list)).join(" ")
    }

    /// Number 26.
    pub fn is_refused(&self) -> bool {
        self.cause().is_some()
    }

    /// The first cause of number 26 that holds, in the order of `CAUSES`; the answer does not tell which.
    pub fn cause(&self) -> Option<&'static str> {
        let cells: u128 = self.row_lengths.iter().map(|length| u128::from(*length)).sum();
        let known = self.offsets.len() as u64;
        let placed = self.kinds.iter().zip(&self.regions);
        let parts = || (0..self.offsets.len()).map(|region| self.part(region));
        let held: [&dyn Fn() -> bool; 10] = [
            &|| self.row_lengths.len() > PLANE_ROWS,
            &|| self.row_lengths.iter().any(|length| *length > PLANE_CELLS as u64),
            &|| self.offsets.len().max(self.lengths.len()) > REGIONS,
            &|| self.bytes.len() > TEXT_BYTES,
            &|| [self.kinds.len(), self.regions.len()].iter().any(|count| *count as u128 != cells),
            &|| self.offsets.len() != self.lengths.len(),
            &|| self.kinds.iter().any(|kind| *kind >= KINDS),
            &|| placed.clone().any(|(kind, region)| *kind == 0 && *region >= known),
            &|| parts().any(|part| part.is_none()),
            &|| parts().flatten().any(|part| std::str::from_utf8(part).is_err()),
        ];
        held.iter().zip(CAUSES).find(|(holds, _)| holds()).map(|(_, cause)| cause)
    }

    /// The bytes of a region, used or not, where they are within the slice.
    fn part(&self, region: usize) -> Option<&[u8]> {
        let start = usize::try_from(self.offsets[region]).ok()?;
        let end = start.checked_add(usize::try_from(self.lengths[region]).ok()?)?;
        self.bytes.get(start..end)
    }

    /// The text of a region.
    pub fn text(&self, region: usize) -> Option<&str> {
        std::str::from_utf8(self.part(region)?).ok()
    }

    /// The cell at a place of the cell slices.
    fn cell(&self, place: usize) -> Cell {
        match self.kinds[place] {
            0 => {
                let region = self.regions[place] as usize;
                let text = self.text(region).expect("checked before").to_string();
                Cell::Region(region, Rect::default(), text)
            }
            1 => Cell::VerticalOutputDoubleLine,
            2 => Cell::VerticalAnnotationDoubleLine,
            3 => Cell::HorizontalOutputDoubleLine,
            4 => Cell::HorizontalAnnotationsDoubleLine,
            5 => Cell::MainDoubleCrossing,
            6 => Cell::HorizontalDoubleCrossing,
            _ => Cell::VerticalDoubleCrossing,
        }
    }

    /// The plane of the Rust. Every row starts with a cell too many, and then the first column is
    /// removed: so a row may be left without cells.
    pub fn plane(&self) -> Plane {
        let mut plane = Plane::default();
        let mut place = 0;
        for (row, length) in self.row_lengths.iter().enumerate() {
            plane.add_cell(row, Cell::MainDoubleCrossing);
            for _ in 0..*length {
                plane.add_cell(row, self.cell(place));
                place += 1;
            }
        }
        plane.remove_first_column();
        plane
    }

    /// The recognizer over the plane.
    pub fn recognizer(&self) -> Recognizer {
        recognizer(self.plane())
    }
}

/// Takes a count and as many numbers off a list.
fn counted(rest: &mut &[u64]) -> Option<Vec<u64>> {
    let (count, numbers) = rest.split_first()?;
    let (list, numbers) = numbers.split_at_checked(usize::try_from(*count).ok()?)?;
    *rest = numbers;
    Some(list.to_vec())
}

/// The recognizer as `Recognizer::recognize` makes it, over a plane and without a name.
fn recognizer(plane: Plane) -> Recognizer {
    Recognizer {
        plane,
        information_item_name: None,
        hit_policy_placement: HitPolicyPlacement::NotPresent,
        hit_policy: HitPolicy::Unique,
        rule_numbers_placement: RuleNumbersPlacement::NotPresent,
        orientation: DecisionTableOrientation::CrossTable,
        input_clause_count: 0,
        input_expressions: vec![],
        allowed_input_values: vec![],
        input_entries: vec![],
        output_clause_count: 0,
        output_label: None,
        output_components: vec![],
        allowed_output_values: vec![],
        output_entries: vec![],
        annotation_clause_count: 0,
        annotations: vec![],
        annotation_entries: vec![],
        rule_count: 0,
    }
}

/// The answer to a lent plane.
pub fn judge_plane(lent: &Lent, record_bytes: usize) -> Outcome {
    if lent.is_refused() {
        return refused_plainly(26);
    }
    let mut recognizer = lent.recognizer();
    match run(|| recognizer.recognize_table_components()) {
        Ok(Ok(())) => of_components(&recognizer).within(record_bytes),
        Ok(Err(error)) => refusal(&error),
        Err(ten) => ten,
    }
}
