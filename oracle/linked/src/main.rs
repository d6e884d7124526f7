//! Compares the port with the Rust on all corpora, and tells which refusals were reached.

use judge::count::Counts;
use judge::outcome::silence_the_rust;
use linked::corpora::{all_planes, all_sheets, all_texts};
use linked::report::Reached;
use linked::workers::Run;
use std::process::ExitCode;
use std::time::Instant;

const USAGE: &str = "linked [--seed S] [--times N] [--jobs J]
compares all corpora; their counts are N times those of the default run";

/// The number behind a word.
fn option(words: &[String], name: &str, default: u64) -> Result<u64, String> {
    match words.iter().position(|word| word == name) {
        None => Ok(default),
        Some(place) => {
            let number = words.get(place + 1).and_then(|word| word.parse().ok());
            number.filter(|number| *number > 0).ok_or_else(|| USAGE.to_string())
        }
    }
}

fn run(words: &[String]) -> Result<(), String> {
    let known = ["--seed", "--times", "--jobs"];
    if !words.iter().step_by(2).all(|word| known.contains(&word.as_str())) {
        return Err(USAGE.to_string());
    }
    let processors = std::thread::available_parallelism().map_or(1, |jobs| jobs.get());
    let jobs = option(words, "--jobs", processors as u64)? as usize;
    let run = Run { seed: option(words, "--seed", 1)?, jobs };
    let times = option(words, "--times", 1)?;
    let began = Instant::now();
    let reached =
        Reached([all_sheets(run, times)?, all_planes(run, times)?, all_texts(run, times)?]);
    let (table, wrong) = reached.told();
    let calls: usize = reached.0.iter().map(Counts::all).sum();
    println!(
        "\n{table}\n{calls} calls in {} seconds, all answers agree",
        began.elapsed().as_secs()
    );
    if wrong.is_empty() { Ok(()) } else { Err(wrong.join("\n")) }
}

fn main() -> ExitCode {
    silence_the_rust();
    let words: Vec<String> = std::env::args().skip(1).collect();
    match run(&words) {
        Ok(()) => ExitCode::SUCCESS,
        Err(what) => {
            println!("{what}");
            ExitCode::FAILURE
        }
    }
}
