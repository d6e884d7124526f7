//! The two sides: the port with its lent slices, and the Rust. Each is made ready before it is asked.

use crate::cases::Input;
use crate::noise::Noise;
use crate::port::{
    self, LENT_SIZES, Lists, SHEET_SIZES, read_lent_plane, read_sheet, split_values,
};
use crate::slices::{Out, Raw, Works};
use judge::{record, sizes};
use recognizer::utils::get_allowed_and_default_output_values;
use recognizer::{DecisionTable, Recognizer, from_unicode};
use std::hint::black_box;

/// Bytes of the output slice: more than any record here has.
const ROOM: usize = 131_072;

/// A lent plane with the widths of the port's slices.
struct Lent {
    rows: Vec<u32>,
    kinds: Vec<u8>,
    regions: Vec<u32>,
    offsets: Vec<u32>,
    sizes: Vec<u32>,
}

impl Lent {
    fn of(lent: &judge::lent::Lent) -> Self {
        let narrow = |list: &[u64]| list.iter().map(|number| *number as u32).collect();
        Self {
            rows: narrow(&lent.row_lengths),
            kinds: lent.kinds.iter().map(|kind| *kind as u8).collect(),
            regions: narrow(&lent.regions),
            offsets: narrow(&lent.offsets),
            sizes: narrow(&lent.lengths),
        }
    }
}

/// What the port answers.
#[derive(Debug)]
pub enum PortAnswer {
    Record(port::Answer),
    Split(port::SplitAnswer),
}

/// The port with the slices that are lent to it.
pub struct Port<'a> {
    input: &'a Input,
    lent: Lent,
    noise: Noise,
    works: Works,
    out: Out,
}

impl<'a> Port<'a> {
    pub fn new(input: &'a Input) -> Self {
        let (sizes, numbers) = match input {
            Input::Sheet(_) => (SHEET_SIZES.as_slice(), 5),
            Input::Plane(_) => (LENT_SIZES.as_slice(), 4),
            Input::Text(_) => ([].as_slice(), 0),
        };
        let lent = match input {
            Input::Plane(lent) => Lent::of(lent),
            _ => Lent::of(&judge::lent::Lent::default()),
        };
        let works = Works::new(sizes, numbers);
        Self { input, lent, noise: Noise::new(1), works, out: Out::default() }
    }

    /// Noise in all slices.
    pub fn ready(&mut self) {
        let sizes = match self.input {
            Input::Sheet(_) => SHEET_SIZES.as_slice(),
            Input::Plane(_) => LENT_SIZES.as_slice(),
            Input::Text(_) => [].as_slice(),
        };
        self.works.lend(sizes, &mut self.noise);
        self.out.lend(ROOM, &mut self.noise);
    }

    pub fn ask(&mut self) -> PortAnswer {
        black_box(ask_port(black_box(self)))
    }

    /// Clears the work slices and does nothing else: no call of the port can take less.
    pub fn clear(&mut self) {
        match self.input {
            Input::Sheet(_) => {
                self.works.numbers::<5>().into_iter().for_each(zero);
                self.works.bytes::<1>().into_iter().for_each(zero);
            }
            Input::Plane(_) => self.works.numbers::<4>().into_iter().for_each(zero),
            Input::Text(_) => {}
        }
    }

    /// What is wrong with the answer, by the answer of the Rust, or with a slice.
    pub fn wrong(&mut self, rust: &RustAnswer) -> Option<String> {
        self.ready();
        let port = self.ask();
        let expected = rust.told();
        let is_same = match (&port, &expected) {
            (PortAnswer::Record(answer), Told::Record(bytes)) => {
                *answer == port::Answer { n: 0, a: bytes.len() as u64, b: 0 }
            }
            (PortAnswer::Split(answer), Told::Own) => *answer == port::SplitAnswer::default(),
            (PortAnswer::Split(answer), Told::Values(bytes)) => {
                (answer.n, answer.rewritten, answer.length) == (0, 1, bytes.len())
            }
            _ => false,
        };
        if !is_same {
            return Some(format!("the port answers {port:?}, the Rust otherwise"));
        }
        let written = match &expected {
            Told::Record(bytes) | Told::Values(bytes) => bytes.as_slice(),
            Told::Own => &[],
        };
        self.out.wrong(written).or_else(|| self.works.wrong(false, &self.noise))
    }
}

/// Zero in a slice.
fn zero<T>((start, count): Raw<T>) {
    // A work slice has at least as many elements as are lent, and zero bytes are a number.
    unsafe { black_box(start).write_bytes(0, count) }
}

/// The whole call of the port. Its name is what callgrind counts in.
#[unsafe(no_mangle)]
#[inline(never)]
fn ask_port(port: &mut Port) -> PortAnswer {
    match port.input {
        Input::Sheet(text) => {
            PortAnswer::Record(read_sheet(text.as_bytes(), &mut port.works, &mut port.out))
        }
        Input::Plane(lent) => {
            let lists = Lists {
                rows: &port.lent.rows,
                kinds: &port.lent.kinds,
                regions: &port.lent.regions,
                offsets: &port.lent.offsets,
                sizes: &port.lent.sizes,
                bytes: &lent.bytes,
            };
            PortAnswer::Record(read_lent_plane(&lists, &mut port.works, &mut port.out))
        }
        Input::Text(text) => PortAnswer::Split(split_values(text.as_bytes(), &mut port.out)),
    }
}

/// What the Rust gives.
pub enum RustAnswer {
    Table(DecisionTable),
    Values(Option<String>, Option<String>),
}

/// What the port must write and answer.
pub enum Told {
    Record(Vec<u8>),
    Own,
    Values(Vec<u8>),
}

impl RustAnswer {
    fn told(&self) -> Told {
        match self {
            RustAnswer::Table(table) => Told::Record(record::encode(table)),
            RustAnswer::Values(Some(values), Some(_)) => Told::Values(values.clone().into_bytes()),
            RustAnswer::Values(..) => Told::Own,
        }
    }
}

/// The Rust, with the plane or the text that it takes.
pub struct Rust<'a> {
    input: &'a Input,
    recognizer: Option<Recognizer>,
    text: Option<String>,
}

impl<'a> Rust<'a> {
    pub fn new(input: &'a Input) -> Self {
        let text = if let Input::Text(text) = input { Some(text.clone()) } else { None };
        Self { input, recognizer: None, text }
    }

    /// A plane is built before each call, since the call takes it apart.
    pub fn ready(&mut self) {
        if let Input::Plane(lent) = self.input {
            self.recognizer = Some(lent.recognizer());
        }
    }

    pub fn ask(&mut self) -> RustAnswer {
        black_box(ask_rust(black_box(self)))
    }
}

/// The whole call of the Rust: from a text or a plane to the table. Its name is what callgrind counts in.
#[unsafe(no_mangle)]
#[inline(never)]
fn ask_rust(rust: &mut Rust) -> RustAnswer {
    match rust.input {
        Input::Sheet(text) => RustAnswer::Table(from_unicode(text, false).expect("a good sheet")),
        Input::Plane(_) => {
            let recognizer = rust.recognizer.as_mut().expect("made ready");
            recognizer.recognize_table_components().expect("a good plane");
            RustAnswer::Table(sizes::table(recognizer).expect("a good size"))
        }
        Input::Text(_) => {
            let (values, default) = get_allowed_and_default_output_values(&rust.text);
            RustAnswer::Values(values, default)
        }
    }
}
