//! The judge's copy of what `from_unicode` does after the recognizer. `validate_size` is private and
//! `from_unicode` takes text only, so a lent plane cannot reach them. The copy is compared with the
//! Rust on every sheet.

use recognizer::utils::get_allowed_and_default_output_values;
use recognizer::{
    AnnotationClause, AnnotationEntry, DecisionRule, DecisionTable, InputClause, InputEntry,
    OutputClause, OutputEntry, Recognizer,
};

/// The first of the thirteen checks of `validate_size` that fails, 1 to 13.
pub fn failed_check(r: &Recognizer) -> Option<usize> {
    let (n, m, k) = (r.input_clause_count, r.output_clause_count, r.annotation_clause_count);
    let in_rows = |rows: &Vec<Vec<String>>, width| rows.iter().any(|row| row.len() != width);
    let counts_but_not = |count: usize, wanted| count > 0 && count != wanted;
    let failed = [
        r.input_expressions.len() != n,
        counts_but_not(r.allowed_input_values.len(), n),
        m == 0,
        m > 1 && r.output_components.len() != m,
        m <= 1 && !r.output_components.is_empty(),
        counts_but_not(r.allowed_output_values.len(), m),
        r.rule_count == 0,
        r.input_entries.len() != r.rule_count,
        in_rows(&r.input_entries, n),
        r.output_entries.len() != r.rule_count,
        in_rows(&r.output_entries, m),
        k > 0 && r.annotation_entries.len() != r.rule_count,
        k > 0 && in_rows(&r.annotation_entries, k),
    ];
    failed.iter().position(|failed| *failed).map(|index| index + 1)
}

/// The table, or the check that fails.
pub fn table(r: &Recognizer) -> Result<DecisionTable, usize> {
    match failed_check(r) {
        Some(check) => Err(check),
        None => Ok(DecisionTable::new(
            r.information_item_name.clone(),
            input_clauses(r),
            output_clauses(r),
            annotation_clauses(r),
            (0..r.rule_count).map(|rule| decision_rule(r, rule)).collect(),
            r.hit_policy,
            r.hit_policy.aggregation(),
            r.orientation,
            r.output_label.clone(),
        )),
    }
}

/// One of the listed values; all are absent when none is listed.
fn listed(values: &[Option<String>], index: usize) -> Option<String> {
    if values.is_empty() { None } else { values[index].clone() }
}

fn input_clauses(r: &Recognizer) -> Vec<InputClause> {
    (0..r.input_clause_count)
        .map(|index| InputClause {
            input_expression: r.input_expressions[index].clone(),
            allowed_input_values: listed(&r.allowed_input_values, index),
        })
        .collect()
}

/// A single output has the label as its component name.
fn component_name(r: &Recognizer, index: usize) -> Option<String> {
    if r.output_components.is_empty() {
        r.output_label.clone()
    } else {
        r.output_components[index].clone()
    }
}

fn output_clauses(r: &Recognizer) -> Vec<OutputClause> {
    (0..r.output_clause_count)
        .map(|index| {
            let values = listed(&r.allowed_output_values, index);
            let (allowed, default) = get_allowed_and_default_output_values(&values);
            OutputClause {
                output_component_name: component_name(r, index),
                allowed_output_values: allowed,
                default_output_value: default,
            }
        })
        .collect()
}

fn annotation_clauses(r: &Recognizer) -> Vec<AnnotationClause> {
    (0..r.annotation_clause_count)
        .map(|index| AnnotationClause { name: r.annotations[index].clone() })
        .collect()
}

fn decision_rule(r: &Recognizer, rule: usize) -> DecisionRule {
    let input = |column: usize| InputEntry { text: r.input_entries[rule][column].clone() };
    let output = |column: usize| OutputEntry { text: r.output_entries[rule][column].clone() };
    let annotation =
        |column: usize| AnnotationEntry { text: r.annotation_entries[rule][column].clone() };
    DecisionRule {
        input_entries: (0..r.input_clause_count).map(input).collect(),
        output_entries: (0..r.output_clause_count).map(output).collect(),
        annotation_entries: (0..r.annotation_clause_count).map(annotation).collect(),
    }
}
