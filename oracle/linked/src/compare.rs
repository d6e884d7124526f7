//! Compares the answers of the port with the Rust's, and counts them.

use crate::inputs::{Input, Lending};
use crate::noise::Noise;
use crate::rooms::Room;
use crate::shrink::shrunk;
use crate::slices::{Out, Works};
use crate::workers::Run;
use judge::count::Counts;
use judge::generate::random::Random;
use judge::outcome::Fault;
use std::cell::RefCell;
use std::sync::atomic::{AtomicU64, Ordering::Relaxed};

/// The rooms in which an input is read that writes so many bytes, or none.
pub type Rooms = fn(&mut Random, &[usize], Option<usize>) -> Vec<Room>;

/// A difference between the port and the Rust: what is wrong, in which room, with which noise in the slices.
struct Difference {
    wrong: String,
    said: String,
    room: Option<Room>,
    noise: usize,
}

impl Difference {
    /// What is wrong, without the numbers that change with the input.
    fn sort(&self) -> String {
        let is_number = |c: char| c.is_ascii_digit() && !self.wrong.starts_with("work slice");
        self.wrong.replace(is_number, "")
    }
}

/// The random numbers of a case's slices: others than those of its input.
fn random_of(run: Run, case: u64) -> Random {
    const SLICES: u64 = 1_000;
    Random::of(&[SLICES, run.seed, case])
}

/// The slices of one thread.
struct Desk {
    noise: Noise,
    works: Works,
    out: Out,
}

impl Desk {
    fn of<I: Input>(run: Run) -> Self {
        Self {
            noise: Noise::new(run.seed),
            works: Works::new(I::SIZES, I::NUMBERS),
            out: Out::default(),
        }
    }

    /// Calls the port in a room; the name of the answer, or what is wrong with it or with a slice.
    fn call<I: Input>(
        &mut self,
        input: &I,
        room: &Room,
        rust: &I::Rust,
    ) -> Result<String, Difference> {
        let noise = self.noise.place();
        self.works.lend(&room.works, &mut self.noise);
        self.out.lend(room.out, &mut self.noise);
        let lent = Lending { room, works: &mut self.works, out: &mut self.out };
        let (wrong, said) = match input.call(rust, lent) {
            Err(said) => ("outcomes differ".to_string(), said),
            Ok(ended) => {
                let kept = || self.works.wrong(ended.is_kept, &self.noise);
                match self.out.wrong(ended.written).or_else(kept) {
                    None => return Ok(ended.name),
                    Some(wrong) => (wrong, format!("both answer {}", ended.name)),
                }
            }
        };
        Err(Difference { wrong, said, room: Some(room.clone()), noise })
    }

    /// Compares one input in some rooms, and counts what its calls come to.
    fn compared<I: Input>(
        &mut self,
        input: &I,
        rooms: impl FnOnce(Option<usize>) -> Vec<Room>,
        counts: &mut Counts,
    ) -> Result<(), Difference> {
        let rust = input.rust().map_err(|Fault(said)| {
            let wrong = "the judge and the Rust differ".to_string();
            Difference { wrong, said, room: None, noise: self.noise.place() }
        })?;
        for room in rooms(I::written(&rust).map(<[u8]>::len)) {
            counts.add(&self.call(input, &room, &rust)?);
        }
        Ok(())
    }
}

/// The smallest input found with a difference of the same sort, and that difference.
fn cut_down<I: Input>(
    run: Run,
    input: I,
    found: Difference,
    fits: fn(&I) -> bool,
) -> (I, Difference) {
    let desk = RefCell::new(Desk::of::<I>(run));
    let room = found.room.clone();
    let written = input.rust().ok().and_then(|rust| I::written(&rust).map(<[u8]>::len));
    let differs = |less: &I| {
        let mut desk = desk.borrow_mut();
        desk.noise.set_place(found.noise);
        let rooms = |bytes| room.iter().map(|room| room.for_bytes(written, bytes)).collect();
        let other = desk.compared(less, rooms, &mut Counts::default()).err()?;
        (other.sort() == found.sort()).then_some(other)
    };
    let smallest = shrunk(input, |less| fits(less) && differs(less).is_some());
    let difference = differs(&smallest);
    (smallest, difference.unwrap_or(found))
}

/// A desk for inputs that come one by one.
pub struct Single<I> {
    run: Run,
    desk: Desk,
    fits: fn(&I) -> bool,
}

impl<I: Input> Single<I> {
    pub fn new(run: Run, fits: fn(&I) -> bool) -> Self {
        Self { run, desk: Desk::of::<I>(run), fits }
    }

    /// Compares an input in the rooms of a case.
    pub fn compared(
        &mut self,
        input: I,
        case: u64,
        rooms: Rooms,
        counts: &mut Counts,
    ) -> Result<(), String> {
        self.desk.noise.begin(case);
        let random = &mut random_of(self.run, case);
        let found = self.desk.compared(&input, |bytes| rooms(random, I::SIZES, bytes), counts);
        found.map_err(|found| {
            let (input, found) = cut_down(self.run, input, found, self.fits);
            let room = found.room.map_or(String::new(), |room| format!("{room}\n"));
            format!("cut down to:\n{}\n{room}{}\n{}", input.shown(), found.wrong, found.said)
        })
    }
}

/// A list of inputs, by their places.
pub struct Corpus<'a, I> {
    pub what: &'a str,
    pub count: u64,
    pub made: &'a (dyn Fn(u64) -> I + Sync),
    pub rooms: Rooms,
    /// Whether the port's slices can hold an input.
    pub fits: fn(&I) -> bool,
}

/// Compares a corpus: the counts, or the first difference with the smallest input that has it.
pub fn corpus<I: Input>(run: Run, corpus: &Corpus<I>) -> Result<Counts, String> {
    let wide = AtomicU64::new(0);
    let counts = run.each(
        corpus.count,
        || Single::new(run, corpus.fits),
        |case, desk, counts| {
            let input = (corpus.made)(case);
            if !(corpus.fits)(&input) {
                wide.fetch_add(1, Relaxed);
                return Ok(());
            }
            let found = desk.compared(input, case, corpus.rooms, counts);
            found.map_err(|found| format!("{}, case {case}, {found}", corpus.what))
        },
    )?;
    let wide = wide.into_inner();
    let left = if wide > 0 { format!(", {wide} do not fit the slices") } else { String::new() };
    let (what, agree) = (corpus.what, corpus.count - wide);
    println!("{what}: {agree} agree by {} calls{left}", counts.all());
    Ok(counts)
}
