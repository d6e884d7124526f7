//! The answer to a sheet, in the order of document 01.

use crate::canvas;
use crate::limits::{CANVAS_COLUMNS, CANVAS_ROWS};
use crate::messages::refusal;
use crate::outcome::{Fault, Judged, Outcome, agree, refused, refused_plainly, run};
use crate::{record, sizes};
use recognizer::canvas::Canvas;
use recognizer::plane::Cell;
use recognizer::{Recognizer, from_unicode};

/// The kind of a cell, in the order of `Cell`.
pub fn kind(cell: &Cell) -> u64 {
    match cell {
        Cell::Region(..) => 0,
        Cell::VerticalOutputDoubleLine => 1,
        Cell::VerticalAnnotationDoubleLine => 2,
        Cell::HorizontalOutputDoubleLine => 3,
        Cell::HorizontalAnnotationsDoubleLine => 4,
        Cell::MainDoubleCrossing => 5,
        Cell::HorizontalDoubleCrossing => 6,
        Cell::VerticalDoubleCrossing => 7,
    }
}

/// The Rust's answer to a text.
fn by_the_rust(text: &str) -> Outcome {
    match run(|| from_unicode(text, false)) {
        Ok(Ok(table)) => Outcome::Record(record::encode(&table)),
        Ok(Err(error)) => refusal(&error),
        Err(ten) => ten,
    }
}

/// The same with the judge's copy of what comes after the recognizer.
fn by_the_copy(text: &str) -> Outcome {
    match run(|| Recognizer::recognize(text, false)) {
        Ok(Ok(recognizer)) => of_components(&recognizer),
        Ok(Err(error)) => refusal(&error),
        Err(ten) => ten,
    }
}

/// The answer of the judge's copy to recognized components.
pub fn of_components(recognizer: &Recognizer) -> Outcome {
    match sizes::table(recognizer) {
        Ok(table) => Outcome::Record(record::encode(&table)),
        Err(check) => refused(25, check.into(), 0.into()),
    }
}

/// Whether the judge's own cell is the Rust's.
fn same_cell(own: &canvas::Plane, row: usize, column: usize, cell: &Cell) -> bool {
    let own_cell = own.rows[row][column];
    let same_region = match cell {
        Cell::Region(number, rect, text) => {
            own_cell.region == *number
                && own.regions[*number] == *rect
                && own.texts[*number] == *text
        }
        _ => true,
    };
    own_cell.kind == kind(cell) && same_region
}

/// Whether the judge's own plane is the Rust's, cell by cell.
fn same_plane(own: &canvas::Plane, rust: &recognizer::plane::Plane) -> bool {
    own.rows.len() == rust.height()
        && own.rows.iter().enumerate().all(|(row, cells)| {
            cells.len() == rust.row_len(row)
                && (0..cells.len()).all(|column| {
                    rust.cell(row, column).is_ok_and(|cell| same_cell(own, row, column, cell))
                })
        })
}

/// What the Rust's regions and plane step come to; a panic is an outcome.
pub type RustPlane = Result<dsntk_common::Result<recognizer::plane::Plane>, Outcome>;

/// A fault, if the judge's own plane is not the Rust's where no limit is passed.
pub fn compare_planes(
    text: &str,
    own: &Result<canvas::Plane, canvas::Stop>,
    rust: &RustPlane,
) -> Judged<()> {
    let same = match (own, rust) {
        (Err(canvas::Stop::OverLimits(_)), _) => true,
        (Ok(own), Ok(Ok(rust))) => same_plane(own, rust),
        (own, rust) => own.is_err() && !matches!(rust, Ok(Ok(_))),
    };
    agree(same, || format!("planes differ on:\n{text}"))
}

/// The limit of number 7 that is passed, from the judge's own canvas. Where none is, it must see what the Rust sees.
fn over_limits(text: &str, rows: &canvas::Layer) -> Judged<Option<&'static str>> {
    let Ok(Ok(mut scanned)) = run(|| Canvas::scan(text)) else {
        return Ok(None);
    };
    let own = canvas::plane(rows);
    compare_planes(text, &own, &run(|| scanned.plane()))?;
    match own {
        Err(canvas::Stop::OverLimits(limit)) => Ok(Some(limit)),
        _ => Ok(None),
    }
}

/// The text and the rows of a sheet whose canvas is not too large; else number 1 or 2.
pub fn rows_of(bytes: &[u8]) -> Result<(&str, canvas::Layer), Outcome> {
    let text = std::str::from_utf8(bytes)
        .map_err(|error| refused(1, error.valid_up_to().into(), 0.into()))?;
    let rows = canvas::collected(text);
    let columns = canvas::width(&rows);
    if rows.len() > CANVAS_ROWS || columns > CANVAS_COLUMNS {
        return Err(refused(2, rows.len().into(), columns.into()));
    }
    Ok((text, rows))
}

/// The answer to the bytes of a sheet.
pub fn judge_sheet(bytes: &[u8], record_bytes: usize) -> Judged<Outcome> {
    Ok(judged_sheet(bytes)?.0.within(record_bytes))
}

/// The answer where no record is too long, with the limit that is passed where it is 7.
pub fn judged_sheet(bytes: &[u8]) -> Judged<(Outcome, Option<&'static str>)> {
    let (text, rows) = match rows_of(bytes) {
        Ok(found) => found,
        Err(outcome) => return Ok((outcome, None)),
    };
    if let Some(limit) = over_limits(text, &rows)? {
        return Ok((refused_plainly(7), Some(limit)));
    }
    let outcome = by_the_rust(text);
    agree(outcome == by_the_copy(text), || format!("the copy differs on:\n{text}"))?;
    Ok((outcome, None))
}

/// The sheets of a file: each is a line `sheet N`, then N bytes and a line feed.
pub fn parse(mut file: &[u8]) -> Judged<Vec<&[u8]>> {
    let mut sheets = vec![];
    while !file.is_empty() {
        let (sheet, rest) =
            first(file).ok_or_else(|| Fault(format!("sheet {} is not whole", sheets.len())))?;
        sheets.push(sheet);
        file = rest;
    }
    Ok(sheets)
}

/// The first sheet of a file, and the rest.
fn first(file: &[u8]) -> Option<(&[u8], &[u8])> {
    let end = file.iter().position(|byte| *byte == b'\n')?;
    let head = std::str::from_utf8(&file[..end]).ok()?;
    let length: usize = head.strip_prefix("sheet ")?.parse().ok()?;
    let rest = &file[end + 1..];
    let (sheet, rest) = rest.split_at_checked(length)?;
    Some((sheet, rest.strip_prefix(b"\n")?))
}
