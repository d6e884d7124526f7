//! The program `judge`: reads standard input, writes standard output.

use judge::generate::{Kind, generate};
use judge::lent::{Lent, judge_plane};
use judge::limits::RECORD_BYTES;
use judge::outcome::{Fault, Judged, run, silence_the_rust};
use judge::sheet::{self, judge_sheet};
use judge::told::plane_answer;
use judge::upright::upright_of;
use judge::{count, line};
use recognizer::canvas::Canvas;
use std::io::{self, BufWriter, Read, Write};
use std::process::ExitCode;

const USAGE: &str = "judge sheet|sheets|planes [--record-bytes N] < FILE
judge layers|answers|stages|causes|count < FILE
judge generate --seed S --count N [--first K] [--kind sheets|damaged|planes|splits|short-splits|short-bytes|long-splits|drawings|damaged-drawings|lent-lines|hand-lines|clause-planes|in-prose]";

/// The options of all modes.
struct Options {
    record_bytes: usize,
    seed: u64,
    first: usize,
    count: usize,
    kind: Kind,
}

fn options(words: &[String]) -> Judged<Options> {
    let mut options =
        Options { record_bytes: RECORD_BYTES, seed: 1, first: 0, count: 1, kind: Kind::Sheets };
    for pair in words.chunks(2) {
        let fault = || Fault(USAGE.to_string());
        let [name, value] = pair else { return Err(fault()) };
        match name.as_str() {
            "--record-bytes" => options.record_bytes = value.parse().map_err(|_| fault())?,
            "--seed" => options.seed = value.parse().map_err(|_| fault())?,
            "--first" => options.first = value.parse().map_err(|_| fault())?,
            "--count" => options.count = value.parse().map_err(|_| fault())?,
            "--kind" => options.kind = Kind::named(value).ok_or_else(fault)?,
            _ => return Err(fault()),
        }
    }
    Ok(options)
}

fn input() -> Judged<Vec<u8>> {
    let mut bytes = vec![];
    io::stdin().read_to_end(&mut bytes).map_err(|error| Fault(error.to_string()))?;
    Ok(bytes)
}

fn input_lines() -> Judged<Vec<String>> {
    let text = String::from_utf8(input()?).map_err(|error| Fault(error.to_string()))?;
    Ok(text.lines().map(str::to_string).collect())
}

fn sheet(out: &mut impl Write, options: &Options) -> Judged<()> {
    write(out, &judge_sheet(&input()?, options.record_bytes)?.print())
}

fn sheets(out: &mut impl Write, options: &Options) -> Judged<()> {
    for (case, sheet) in sheet::parse(&input()?)?.iter().enumerate() {
        write(out, format!("case {case}\n").as_bytes())?;
        write(out, &judge_sheet(sheet, options.record_bytes)?.print())?;
    }
    Ok(())
}

/// Prints the four layers of a sheet as the Rust does, or nothing where its scan fails.
fn layers() -> Judged<()> {
    let text = String::from_utf8(input()?).map_err(|error| Fault(error.to_string()))?;
    if let Ok(Ok(canvas)) = run(|| Canvas::scan(&text)) {
        canvas.display_text_layer();
        canvas.display_thin_layer();
        canvas.display_body_layer();
        canvas.display_grid_layer();
    }
    Ok(())
}

fn planes(out: &mut impl Write, options: &Options) -> Judged<()> {
    for (case, line) in input_lines()?.iter().enumerate() {
        write(out, format!("case {case}\n").as_bytes())?;
        write(out, &judge_plane(&Lent::parse(line)?, options.record_bytes).print())?;
    }
    Ok(())
}

/// What is counted of each plane, a line.
fn causes(out: &mut impl Write) -> Judged<()> {
    for line in input_lines()? {
        let lent = Lent::parse(&line)?;
        let answer = plane_answer(&lent, &upright_of(&lent))?;
        write(out, format!("{}\n", answer.name()).as_bytes())?;
    }
    Ok(())
}

fn answers(out: &mut impl Write) -> Judged<()> {
    for line in input_lines()? {
        line::answer(out, &line)?;
    }
    Ok(())
}

fn stages(out: &mut impl Write) -> Judged<()> {
    for line in input_lines()? {
        write(out, format!("{}\n", line::stage_of(&line)?).as_bytes())?;
    }
    Ok(())
}

fn write(out: &mut impl Write, bytes: &[u8]) -> Judged<()> {
    out.write_all(bytes).map_err(|error| Fault(error.to_string()))
}

fn answer() -> Judged<()> {
    let words: Vec<String> = std::env::args().skip(1).collect();
    let (mode, rest) = words.split_first().ok_or_else(|| Fault(USAGE.to_string()))?;
    let options = options(rest)?;
    let mut out = BufWriter::new(io::stdout().lock());
    match mode.as_str() {
        "sheet" => sheet(&mut out, &options)?,
        "sheets" => sheets(&mut out, &options)?,
        "layers" => layers()?,
        "planes" => planes(&mut out, &options)?,
        "answers" => answers(&mut out)?,
        "causes" => causes(&mut out)?,
        "stages" => stages(&mut out)?,
        "count" => write(&mut out, count::count(&input()?).as_bytes())?,
        "generate" => {
            for case in options.first..options.first + options.count {
                write(&mut out, &generate(options.kind, options.seed, case as u64))?;
            }
        }
        _ => return Err(Fault(USAGE.to_string())),
    }
    out.flush().map_err(|error| Fault(error.to_string()))
}

fn main() -> ExitCode {
    silence_the_rust();
    match answer() {
        Ok(()) => ExitCode::SUCCESS,
        Err(Fault(what)) => {
            eprintln!("{what}");
            ExitCode::FAILURE
        }
    }
}
