//! The table record of document 01: written from the Rust's table, and printed.

use recognizer::{BuiltinAggregator, DecisionTable, DecisionTableOrientation, HitPolicy};
use std::io::Write;

/// Words before the slots.
const WORDS: usize = 10;
/// Names of the words that are printed.
const NAMES: [&str; 7] =
    ["bytes", "policy", "orientation", "inputs", "outputs", "annotations", "rules"];

/// Hit policies in the order of document 01: U A P F R O C C+ C# C< C>.
pub fn policy(hit_policy: HitPolicy) -> usize {
    match hit_policy {
        HitPolicy::Unique => 0,
        HitPolicy::Any => 1,
        HitPolicy::Priority => 2,
        HitPolicy::First => 3,
        HitPolicy::RuleOrder => 4,
        HitPolicy::OutputOrder => 5,
        HitPolicy::Collect(BuiltinAggregator::List) => 6,
        HitPolicy::Collect(BuiltinAggregator::Sum) => 7,
        HitPolicy::Collect(BuiltinAggregator::Count) => 8,
        HitPolicy::Collect(BuiltinAggregator::Min) => 9,
        HitPolicy::Collect(BuiltinAggregator::Max) => 10,
    }
}

/// Rows or columns.
fn orientation(orientation: DecisionTableOrientation) -> usize {
    match orientation {
        DecisionTableOrientation::RulesAsRows => 0,
        DecisionTableOrientation::RulesAsColumns => 1,
        DecisionTableOrientation::CrossTable => panic!("a crosstab has no record"),
    }
}

/// The texts of a table in the order of the slots.
fn slots(table: &DecisionTable) -> Vec<Option<&str>> {
    let mut slots = vec![table.information_item_name.as_deref(), table.output_label.as_deref()];
    for input in &table.input_clauses {
        slots.push(Some(&input.input_expression));
        slots.push(input.allowed_input_values.as_deref());
    }
    for output in &table.output_clauses {
        slots.push(output.output_component_name.as_deref());
        slots.push(output.allowed_output_values.as_deref());
        slots.push(output.default_output_value.as_deref());
    }
    slots.extend(table.annotation_clauses.iter().map(|annotation| Some(annotation.name.as_str())));
    for rule in &table.rules {
        slots.extend(rule.input_entries.iter().map(|entry| Some(entry.text.as_str())));
        slots.extend(rule.output_entries.iter().map(|entry| Some(entry.text.as_str())));
        slots.extend(rule.annotation_entries.iter().map(|entry| Some(entry.text.as_str())));
    }
    slots
}

/// The bytes of the record of a table.
pub fn encode(table: &DecisionTable) -> Vec<u8> {
    let slots = slots(table);
    let text_offset = 4 * WORDS + 8 * slots.len();
    let mut places = vec![];
    let mut texts = vec![];
    for slot in &slots {
        match slot {
            None => places.extend([0, 0]),
            Some(text) => {
                places.extend([text_offset + texts.len(), text.len()]);
                texts.extend_from_slice(text.as_bytes());
            }
        }
    }
    let words: [usize; WORDS] = [
        text_offset + texts.len(),
        policy(table.hit_policy),
        orientation(table.preferred_orientation),
        table.input_clauses.len(),
        table.output_clauses.len(),
        table.annotation_clauses.len(),
        table.rules.len(),
        4 * WORDS,
        slots.len(),
        text_offset,
    ];
    let mut bytes: Vec<u8> =
        words.iter().chain(&places).flat_map(|word| (*word as u32).to_le_bytes()).collect();
    bytes.extend(texts);
    bytes
}

/// Whether a record is that of a row sheet.
pub fn is_by_rows(record: &[u8]) -> bool {
    word(record, 2) == 0
}

/// The word at an index of a record.
fn word(record: &[u8], index: usize) -> usize {
    let bytes = record[4 * index..4 * index + 4].try_into().expect("four bytes");
    u32::from_le_bytes(bytes) as usize
}

/// The offset and the length of a slot that is not absent.
fn place(record: &[u8], slot: usize) -> Option<(usize, usize)> {
    let first = word(record, 7) / 4 + 2 * slot;
    let offset = word(record, first);
    (offset != 0).then(|| (offset, word(record, first + 1)))
}

/// The lines that document 01's program prints for a record.
pub fn print(record: &[u8]) -> Vec<u8> {
    let mut out = vec![];
    for (index, name) in NAMES.iter().enumerate() {
        writeln!(out, "{name} {}", word(record, index)).expect("a vector takes all");
    }
    for slot in 0..word(record, 8) {
        if let Some((offset, length)) = place(record, slot) {
            write!(out, "slot {slot} {offset} {length} ").expect("a vector takes all");
            out.extend_from_slice(&record[offset..offset + length]);
            out.push(b'\n');
        } else {
            writeln!(out, "slot {slot} absent").expect("a vector takes all");
        }
    }
    out
}
