//! The time of both sides, taken in turn.

use crate::cases::{Case, Input};
use crate::figures::Spread;
use crate::sides::{Port, Rust};
use std::hint::black_box;
use std::time::{Duration, Instant};

/// A buffer that no cache of the machine holds.
const BUFFER: usize = 128 << 20;
/// The bytes of a line of the cache.
const LINE: usize = 64;

/// How long a case may take, and how often it is asked.
const LIMIT: Duration = Duration::from_millis(1_500);
const LEAST: usize = 31;
const MOST: usize = 2_001;

/// Walks over a big buffer between calls, or does not.
pub struct Caches(Option<Vec<u8>>);

impl Caches {
    pub fn warm() -> Self {
        Self(None)
    }

    pub fn cold() -> Self {
        Self(Some(vec![1; BUFFER]))
    }

    fn name(&self) -> &'static str {
        if self.0.is_some() { "cold" } else { "warm" }
    }

    fn is_warm(&self) -> bool {
        self.0.is_none()
    }

    fn walk(&mut self) {
        if let Some(buffer) = &mut self.0 {
            for line in buffer.chunks_mut(LINE) {
                line[0] = line[0].wrapping_add(1);
            }
            black_box(buffer);
        }
    }
}

/// Microseconds of a call; what it answers is dropped behind the end.
fn micros<T>(call: impl FnOnce() -> T) -> f64 {
    let began = Instant::now();
    let answer = call();
    let took = began.elapsed();
    drop(black_box(answer));
    took.as_nanos() as f64 / 1_000.0
}

/// The times of both sides in the same rounds.
pub struct Times {
    pub name: String,
    pub goal: Option<f64>,
    pub port: Spread,
    pub clear: Spread,
    pub rust: Spread,
    pub ratio: Spread,
}

impl Times {
    /// Whether the port is fast enough by the median of the ratios.
    pub fn is_met(&self) -> bool {
        self.goal.is_none_or(|goal| self.ratio.median >= goal)
    }

    pub fn print(&self) {
        let goal = match self.goal {
            Some(goal) => format!("{goal} {}", if self.is_met() { "met" } else { "NOT MET" }),
            None => String::new(),
        };
        let [port, rust] = [&self.port, &self.rust].map(|side| side.shown(2));
        let [clear, ratio] = [format!("{:.2}", self.clear.median), self.ratio.shown(2)];
        println!("{:<22} {port:>30} {clear:>9} {rust:>30} {ratio:>24}  {goal}", self.name);
    }
}

pub fn print_head() {
    println!(
        "Microseconds a call: median (quartiles). clearing: zeroing the port's work slices alone."
    );
    println!("Rust/port: the median of the rounds' ratios (quartiles).");
    let [port, clear, rust, ratio] = ["port", "clearing", "Rust", "Rust/port"];
    println!("{:<22} {port:>30} {clear:>9} {rust:>30} {ratio:>24}  goal", "");
}

/// One round of a side: a first call where the caches are warm, then the timed one.
fn round<S, T>(caches: &mut Caches, side: &mut S, ready: fn(&mut S), ask: fn(&mut S) -> T) -> f64 {
    if caches.is_warm() {
        ready(side);
        drop(black_box(ask(side)));
    }
    ready(side);
    caches.walk();
    micros(|| ask(side))
}

/// Times a case; the two sides take turns in going first.
pub fn times(case: &Case, caches: &mut Caches) -> Times {
    let (mut port, mut rust) = (Port::new(&case.input), Rust::new(&case.input));
    let mut rounds: Vec<[f64; 3]> = vec![];
    let began = Instant::now();
    while rounds.len() < LEAST || (rounds.len() < MOST && began.elapsed() < LIMIT) {
        let mut by_port = |caches: &mut Caches| {
            let call = round(caches, &mut port, Port::ready, Port::ask);
            (call, round(caches, &mut port, Port::ready, Port::clear))
        };
        let mut by_rust = |caches: &mut Caches| round(caches, &mut rust, Rust::ready, Rust::ask);
        let ((call, clear), rust) = if rounds.len().is_multiple_of(2) {
            (by_port(caches), by_rust(caches))
        } else {
            let rust = by_rust(caches);
            (by_port(caches), rust)
        };
        rounds.push([call, clear, rust]);
    }
    let spread = |side: usize| Spread::of(rounds.iter().map(|round| round[side]));
    Times {
        name: format!("{} {}", case.name, caches.name()),
        goal: case.goal,
        port: spread(0),
        clear: spread(1),
        rust: spread(2),
        ratio: Spread::of(rounds.iter().map(|[port, _, rust]| rust / port)),
    }
}

/// A fault, if the port and the Rust do not answer alike.
pub fn compare(case: &Case) -> Result<(), String> {
    let mut rust = Rust::new(&case.input);
    rust.ready();
    match Port::new(&case.input).wrong(&rust.ask()) {
        Some(wrong) => Err(format!("{}: {wrong}", case.name)),
        None => Ok(()),
    }
}

/// The size of an input in words.
pub fn size(input: &Input) -> String {
    match input {
        Input::Sheet(text) => {
            let rows = judge::canvas::collected(text);
            let regions = judge::canvas::regions_of(&rows).map_or(0, |(rects, _)| rects.len());
            let columns = judge::canvas::width(&rows);
            let bytes = text.len();
            format!("{bytes} bytes, {} by {columns} characters, {regions} regions", rows.len())
        }
        Input::Plane(lent) => format!(
            "{} rows of {} cells, {} regions",
            lent.row_lengths.len(),
            lent.row_lengths[0],
            lent.offsets.len()
        ),
        Input::Text(text) => format!("{} bytes", text.len()),
    }
}
