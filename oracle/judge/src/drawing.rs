//! The answer to a drawing: the layers as the Rust prints them, the regions with their texts, the
//! name of the table, and the plane.

use crate::canvas::{self, Layer, Regions, Stop};
use crate::messages::refusal;
use crate::outcome::{Fault, Judged, Outcome, refused_plainly, run};
use crate::rows::{self, Rows, rows};
use crate::sheet::{RustPlane, compare_planes, rows_of};
use recognizer::canvas::Canvas;
use std::io::Write;

/// What drawing a sheet comes to: a refusal, or a canvas and what is read off it.
enum Drawing {
    NotDrawn(Outcome),
    Drawn(Box<Canvas>, Result<Read, Outcome>),
}

/// The regions of a canvas, and its plane, which may be refused.
struct Read {
    regions: Regions,
    plane: Result<Rows, Outcome>,
}

fn draw(bytes: &[u8]) -> Judged<Drawing> {
    let (text, rows) = match rows_of(bytes) {
        Ok(found) => found,
        Err(outcome) => return Ok(Drawing::NotDrawn(outcome)),
    };
    match run(|| Canvas::scan(text)) {
        Ok(Ok(mut canvas)) => {
            let read = read(text, &rows, &mut canvas)?;
            Ok(Drawing::Drawn(Box::new(canvas), read))
        }
        Ok(Err(error)) => Ok(Drawing::NotDrawn(refusal(&error))),
        Err(ten) => Ok(Drawing::NotDrawn(ten)),
    }
}

/// The regions of the judge's own canvas and the plane of the Rust, which must be that of the
/// judge's own canvas.
fn read(text: &str, layer: &Layer, canvas: &mut Canvas) -> Judged<Result<Read, Outcome>> {
    let rust = run(|| canvas.plane());
    let own = canvas::plane(layer);
    compare_planes(text, &own, &rust)?;
    let regions = match canvas::regions_of(layer) {
        Ok(regions) => regions,
        Err(stop) => return Ok(Err(stopped(text, stop, &rust)?)),
    };
    let plane = match (own, &rust) {
        (Err(stop), rust) => Err(stopped(text, stop, rust)?),
        (Ok(_), Ok(Ok(plane))) => Ok(rows(plane)),
        (Ok(_), _) => unreachable!("compared before"),
    };
    Ok(Ok(Read { regions, plane }))
}

/// The refusal where the judge's own canvas stops. Where a walk fails, the Rust's plane tells why.
fn stopped(text: &str, stop: Stop, rust: &RustPlane) -> Judged<Outcome> {
    match (stop, rust) {
        (Stop::OverLimits(_), _) => Ok(refused_plainly(7)),
        (Stop::TheRust, Ok(Err(error))) => Ok(refusal(error)),
        (Stop::TheRust, Err(ten)) => Ok(ten.clone()),
        (Stop::TheRust, Ok(Ok(_))) => Err(Fault(format!("regions differ on:\n{text}"))),
    }
}

fn write(out: &mut impl Write, bytes: &[u8]) -> Judged<()> {
    out.write_all(bytes).map_err(|error| Fault(error.to_string()))
}

/// The lines of the regions and the line of the name.
fn print_regions((rects, texts): &Regions, name: &Option<String>) -> String {
    let mut lines = format!("regions {}\n", rects.len());
    for (rect, text) in rects.iter().zip(texts) {
        let [left, top, right, bottom] = [rect.left, rect.top, rect.right, rect.bottom];
        lines.push_str(&format!("{left} {top} {right} {bottom} {text}\n"));
    }
    match name {
        Some(name) => lines.push_str(&format!("name {name}\n")),
        None => lines.push_str("no name\n"),
    }
    lines
}

/// The lines of the plane.
fn print_plane(plane: &Result<Rows, Outcome>) -> Vec<u8> {
    match plane {
        Ok(rows) => rows::print(rows).into_bytes(),
        Err(outcome) => outcome.print(),
    }
}

/// Prints the layers as the Rust does, on standard output and past `out`.
fn display_layers(out: &mut impl Write, canvas: &Canvas) -> Judged<()> {
    out.flush().map_err(|error| Fault(error.to_string()))?;
    canvas.display_text_layer();
    canvas.display_thin_layer();
    canvas.display_body_layer();
    canvas.display_grid_layer();
    Ok(())
}

/// Answers the bytes of a sheet; `out` must write to standard output.
pub fn judge_drawing(out: &mut impl Write, bytes: &[u8]) -> Judged<()> {
    match draw(bytes)? {
        Drawing::NotDrawn(outcome) => write(out, &outcome.print()),
        Drawing::Drawn(canvas, read) => {
            display_layers(out, &canvas)?;
            match read {
                Ok(read) => {
                    let lines = print_regions(&read.regions, &canvas.information_item_name);
                    write(out, lines.as_bytes())?;
                    write(out, &print_plane(&read.plane))
                }
                Err(outcome) => write(out, &outcome.print()),
            }
        }
    }
}

/// The stage at which a sheet is refused, with the number, or that it is read: a line for counts.
pub fn stage(bytes: &[u8]) -> Judged<String> {
    let refused_in = |outcome: &Outcome, stage: &str| match outcome {
        Outcome::Refused(number, _, _) => format!("refused {number} in {stage}"),
        Outcome::Record(_) => stage.to_string(),
    };
    Ok(match draw(bytes)? {
        Drawing::NotDrawn(outcome) => refused_in(&outcome, scan_stage(bytes)),
        Drawing::Drawn(_, Err(outcome)) => refused_in(&outcome, "regions"),
        Drawing::Drawn(_, Ok(Read { plane: Err(outcome), .. })) => refused_in(&outcome, "plane"),
        Drawing::Drawn(canvas, Ok(_)) => match canvas.information_item_name {
            Some(_) => "read, with a name".to_string(),
            None => "read, without a name".to_string(),
        },
    })
}

/// The stage at which the scan of a sheet fails. Walks of the name go over no ╬ and search none, so
/// that without every ╬ they end as before, and what then is missing is ╬.
fn scan_stage(bytes: &[u8]) -> &'static str {
    let Ok((text, rows)) = rows_of(bytes) else { return "text" };
    let is_crossed = rows.iter().flatten().any(|c| *c == '╬');
    match run(|| Canvas::scan(&text.replace('╬', "x"))) {
        Ok(Err(error)) if !error.message().ends_with(": ╬") => "name",
        _ if is_crossed => "body",
        _ => "crossing",
    }
}
