//! Times the port and the unchanged Rust on the same sheets, lent planes and texts, and counts their instructions.

mod cases;
mod count;
mod draw;
mod figures;
mod sides;
mod time;

#[allow(dead_code)]
#[path = "../../oracle/linked/src/noise.rs"]
mod noise;
#[path = "../../oracle/linked/src/port.rs"]
mod port;
#[path = "../../oracle/linked/src/slices.rs"]
mod slices;

use cases::{Case, GROWTHS, Growth, NAMES, input, named};
use count::{Side, counted};
use figures::exponent;
use sides::{Port, Rust};
use std::hint::black_box;
use std::process::ExitCode;
use time::{Caches, compare, print_head, size, times};

const USAGE: &str = "bench times|instructions|growth
bench sheet NAME
bench calls NAME port|rust COUNT";

/// The cases, each compared before it is measured.
fn cases() -> Result<Vec<Case>, String> {
    let cases: Vec<Case> = NAMES.into_iter().filter_map(named).collect();
    for case in &cases {
        compare(case)?;
    }
    Ok(cases)
}

fn print_sizes(cases: &[Case]) {
    println!("The port and the Rust answer alike on:");
    for case in cases {
        println!("  {:<16} {}", case.name, size(&case.input));
    }
    println!();
}

/// Where the port's instructions go.
fn print_functions(name: &str) -> Result<(), String> {
    let functions = counted(name, Side::Port)?.functions()?;
    println!("{:<18} {}", "", functions.join(", "));
    Ok(())
}

/// The times of all cases, and for those that miss their goal where the port's instructions go.
fn all_times() -> Result<(), String> {
    let cases = cases()?;
    print_sizes(&cases);
    print_head();
    let (mut warm, mut cold) = (Caches::warm(), Caches::cold());
    let mut missed = vec![];
    let (mut goals, mut met) = (0, 0);
    for case in &cases {
        for caches in [&mut warm, &mut cold] {
            let times = times(case, caches);
            times.print();
            goals += usize::from(times.goal.is_some());
            met += usize::from(times.goal.is_some() && times.is_met());
            if !times.is_met() && !missed.contains(&case.name) {
                missed.push(case.name);
            }
        }
    }
    println!("\n{met} of {goals} goals are met");
    for name in missed {
        println!("{name}: where the port's instructions go");
        print_functions(name)?;
    }
    Ok(())
}

/// The instructions of all cases.
fn all_instructions() -> Result<(), String> {
    let cases = cases()?;
    print_sizes(&cases);
    println!(
        "Instructions a call, by callgrind; under each the functions that have most of the port's."
    );
    println!("{:<18} {:>14} {:>14} {:>10}", "", "port", "Rust", "Rust/port");
    for case in &cases {
        let port = counted(case.name, Side::Port)?;
        let rust = counted(case.name, Side::Rust)?.instructions;
        let ratio = rust as f64 / port.instructions as f64;
        println!("{:<18} {:>14} {rust:>14} {ratio:>10.2}", case.name, port.instructions);
        println!("    {}", port.functions()?.join(", "));
    }
    Ok(())
}

/// The instructions of both sides as sheets grow in one way.
fn growth(growth: Growth) -> Result<(), String> {
    println!("{}, by {}", growth.name, growth.what);
    let (mut port, mut rust) = (vec![], vec![]);
    for size in growth.sizes {
        let name = format!("{}-{size}", growth.name);
        let count = growth.count(*size) as f64;
        let [by_port, by_rust] = [Side::Port, Side::Rust]
            .map(|side| counted(&name, side).map(|found| found.instructions));
        let (by_port, by_rust) = (by_port? as f64, by_rust? as f64);
        println!("{count:>8} {by_port:>14} {by_rust:>14} {:>10.2}", by_rust / by_port);
        port.push((count, by_port));
        rust.push((count, by_rust));
    }
    let last = |points: &[(f64, f64)]| exponent(&points[points.len() - 3..]);
    println!("exponent {:>14.2} {:>14.2}", exponent(&port), exponent(&rust));
    println!("  last 3 {:>14.2} {:>14.2}\n", last(&port), last(&rust));
    Ok(())
}

fn all_growths() -> Result<(), String> {
    println!(
        "Instructions a call as a sheet grows; the exponent is fitted by least squares to the logarithms."
    );
    println!("{:>8} {:>14} {:>14} {:>10}", "", "port", "Rust", "Rust/port");
    GROWTHS.into_iter().try_for_each(growth)
}

/// Asks one side so many times.
fn calls(name: &str, side: &str, count: &str) -> Option<()> {
    let input = input(name)?;
    let side = Side::named(side)?;
    for _ in 0..count.parse::<u64>().ok()? {
        match side {
            Side::Port => {
                let mut port = Port::new(&input);
                port.ready();
                black_box(port.ask());
            }
            Side::Rust => {
                let mut rust = Rust::new(&input);
                rust.ready();
                black_box(rust.ask());
            }
        }
    }
    Some(())
}

/// Prints the sheet of a name.
fn print_sheet(name: &str) -> Option<()> {
    let cases::Input::Sheet(text) = input(name)? else { return None };
    print!("{text}");
    Some(())
}

fn run(words: &[&str]) -> Result<(), String> {
    let usage = || USAGE.to_string();
    match words {
        ["times"] => all_times(),
        ["instructions"] => all_instructions(),
        ["growth"] => all_growths(),
        ["sheet", name] => print_sheet(name).ok_or_else(usage),
        ["calls", name, side, count] => calls(name, side, count).ok_or_else(usage),
        _ => Err(usage()),
    }
}

fn main() -> ExitCode {
    let words: Vec<String> = std::env::args().skip(1).collect();
    let words: Vec<&str> = words.iter().map(String::as_str).collect();
    match run(&words) {
        Ok(()) => ExitCode::SUCCESS,
        Err(what) => {
            eprintln!("{what}");
            ExitCode::FAILURE
        }
    }
}
