//! A port for the tests: the judge's own answers, as the port gives them, with a fault or without.

use crate::port::{Answer, LENT_SIZES, SHEET_SIZES, SplitAnswer};
use judge::lent::Lent;
use judge::outcome::{Outcome, Told};
use judge::split::{Split, split_of};
use judge::told::{plane_answer, sheet_answer};
use judge::upright::upright_of;
use std::cell::Cell;
use std::slice::{from_raw_parts, from_raw_parts_mut};

/// What the mock does wrong.
#[derive(Debug, Clone, Copy, PartialEq, Eq)]
pub enum Wrong {
    Nothing,
    /// A, or B, of a refusal with such a number.
    A(u64),
    B(u64),
    /// A refusal with such a number is another one.
    N(u64),
    /// The total of a record, or a B with it.
    Total,
    RecordB,
    /// A byte of the record, from its front or from its end.
    Front(usize),
    End(usize),
    /// The record is not written.
    Idle,
    /// The output slice is changed behind the record, or behind its own end.
    Behind,
    PastOut,
    /// The output slice is changed in a refusal with such a number.
    Touched(u64),
    /// The last element of a work slice is not cleared, or all behind its size are not.
    NotCleared(usize),
    NotClearedBehind(usize),
    /// A work slice is written behind its end.
    PastWork(usize),
    /// A work slice of exactly its size is short.
    ShortEarly,
    /// Of several short slices the last is told.
    ShortLast,
    /// No slice is short.
    ShortNever,
    /// Another refusal comes before 28.
    ShortLate,
    /// Work slices are cleared after 28.
    ShortCleared,
    /// An output slice exactly as long as the record is too short.
    TooShortEarly,
    /// A short output slice is refused before the input is read.
    TooShortFirst,
    /// As much of the record is written as there is room for.
    TooShortNever,
    /// The numbers of a split's answer.
    Rewritten,
    Length,
    From,
    To,
    /// A text that is its own values is copied.
    Copied,
}

thread_local! {
    pub static WRONG: Cell<Wrong> = const { Cell::new(Wrong::Nothing) };
}

fn is(wrong: Wrong) -> bool {
    WRONG.get() == wrong
}

/// A refusal's numbers.
fn refusal(n: u64, a: u64, b: u64) -> Answer {
    let more = |wrong| u64::from(is(wrong));
    Answer { n: n + more(Wrong::N(n)), a: a + more(Wrong::A(n)), b: b + more(Wrong::B(n)) }
}

/// A slice of the caller's.
unsafe fn list<'a, T>(elements: *const T, count: usize) -> &'a [T] {
    unsafe { from_raw_parts(elements, count) }
}

unsafe fn wide<N: Copy + Into<u64>>((numbers, count): (*const N, usize)) -> Vec<u64> {
    unsafe { list(numbers, count) }.iter().map(|number| (*number).into()).collect()
}

/// A slice that is written to.
struct Slice<'a, T>(&'a mut [T]);

impl<T: Copy + Default> Slice<'_, T> {
    unsafe fn of(elements: *mut T, count: usize) -> Self {
        Self(unsafe { from_raw_parts_mut(elements, count) })
    }

    /// Clears the work slice with a number and a size.
    fn clear(&mut self, index: usize, size: usize) {
        let count = match WRONG.get() {
            Wrong::NotCleared(wrong) if wrong == index => self.0.len() - 1,
            Wrong::NotClearedBehind(wrong) if wrong == index => size,
            _ => self.0.len(),
        };
        self.0[..count].fill(T::default());
        if is(Wrong::PastWork(index)) {
            self.write_past(T::default());
        }
    }

    /// Writes behind the end, where the caller has some more elements.
    fn write_past(&mut self, element: T) {
        unsafe { self.0.as_mut_ptr().add(self.0.len()).write(element) }
    }
}

/// The slices of a call.
struct Call<'a> {
    numbers: Vec<Slice<'a, u32>>,
    bytes: Vec<Slice<'a, u8>>,
    sizes: &'static [usize],
    out: Slice<'a, u8>,
}

impl Call<'_> {
    /// The work slice that 28 tells.
    fn short(&self) -> Option<usize> {
        let numbers = self.numbers.iter().map(|slice| slice.0.len());
        let lengths = numbers.chain(self.bytes.iter().map(|slice| slice.0.len()));
        let early = usize::from(is(Wrong::ShortEarly));
        let mut short =
            lengths.enumerate().filter(|(index, lent)| *lent < self.sizes[*index] + early);
        let found = if is(Wrong::ShortLast) { short.last() } else { short.next() };
        found.map(|(index, _)| index).filter(|_| !is(Wrong::ShortNever))
    }

    fn clear(&mut self) {
        for (index, slice) in self.numbers.iter_mut().enumerate() {
            slice.clear(index, self.sizes[index]);
        }
        for (index, slice) in self.bytes.iter_mut().enumerate() {
            let index = self.numbers.len() + index;
            slice.clear(index, self.sizes[index]);
        }
    }

    /// The end of a call that comes to such an outcome where no slice is short.
    fn end(mut self, outcome: Outcome) -> Answer {
        let is_late = is(Wrong::ShortLate) && matches!(outcome, Outcome::Refused(..));
        if let Some(slice) = self.short().filter(|_| !is_late) {
            if is(Wrong::ShortCleared) {
                self.clear();
            }
            return self.refused(28, slice as u64, self.sizes[slice] as u64);
        }
        self.clear();
        let room = self.out.0.len();
        match outcome {
            _ if is(Wrong::TooShortFirst) && room < 40 => refusal(27, 40, 0),
            Outcome::Record(record) => self.written(&record),
            Outcome::Refused(n, a, b) => self.refused(n.into(), number(a), number(b)),
        }
    }

    fn refused(&mut self, n: u64, a: u64, b: u64) -> Answer {
        if is(Wrong::Touched(n)) && !self.out.0.is_empty() {
            self.out.0[0] ^= 1;
        }
        refusal(n, a, b)
    }

    /// The end of a call that comes to a record.
    fn written(&mut self, record: &[u8]) -> Answer {
        let (total, room) = (record.len(), self.out.0.len());
        let is_short = total + usize::from(is(Wrong::TooShortEarly)) > room;
        if is_short && !is(Wrong::TooShortNever) {
            return self.refused(27, total as u64, 0);
        }
        let fits = total.min(room);
        if !is(Wrong::Idle) {
            self.out.0[..fits].copy_from_slice(&record[..fits]);
        }
        match WRONG.get() {
            Wrong::Front(place) => self.out.0[place] ^= 1,
            Wrong::End(place) => self.out.0[total - 1 - place] ^= 1,
            Wrong::Behind if room > total => self.out.0[total] ^= 1,
            Wrong::PastOut => self.out.write_past(0),
            _ => {}
        }
        let more = |wrong| u64::from(is(wrong));
        Answer { n: 0, a: total as u64 + more(Wrong::Total), b: more(Wrong::RecordB) }
    }
}

fn number(told: Told) -> u64 {
    match told {
        Told::Number(number) => number,
        Told::Unknown => panic!("all is told"),
    }
}

#[unsafe(no_mangle)]
unsafe extern "C" fn fezandimo_read_sheet(
    sheet: *const u8,
    sheet_count: usize,
    text: *mut u32,
    text_count: usize,
    thins: *mut u32,
    thin_count: usize,
    bodies: *mut u32,
    body_count: usize,
    grid: *mut u32,
    grid_count: usize,
    spans: *mut u32,
    span_count: usize,
    bytes: *mut u8,
    byte_count: usize,
    out: *mut u8,
    out_count: usize,
) -> Answer {
    let numbers = [
        (text, text_count),
        (thins, thin_count),
        (bodies, body_count),
        (grid, grid_count),
        (spans, span_count),
    ];
    let bytes = [(bytes, byte_count)];
    let call = unsafe { call(&numbers, &bytes, &SHEET_SIZES, (out, out_count)) };
    let sheet = unsafe { list(sheet, sheet_count) };
    call.end(sheet_answer(sheet).expect("the judge agrees with the Rust").outcome)
}

unsafe fn call<'a>(
    numbers: &[(*mut u32, usize)],
    bytes: &[(*mut u8, usize)],
    sizes: &'static [usize],
    out: (*mut u8, usize),
) -> Call<'a> {
    unsafe {
        Call {
            numbers: numbers.iter().map(|(slice, count)| Slice::of(*slice, *count)).collect(),
            bytes: bytes.iter().map(|(slice, count)| Slice::of(*slice, *count)).collect(),
            sizes,
            out: Slice::of(out.0, out.1),
        }
    }
}

#[unsafe(no_mangle)]
unsafe extern "C" fn fezandimo_read_lent_plane(
    rows: *const u32,
    row_count: usize,
    kinds: *const u8,
    kind_count: usize,
    regions: *const u32,
    region_count: usize,
    offsets: *const u32,
    offset_count: usize,
    sizes: *const u32,
    size_count: usize,
    bytes: *const u8,
    byte_count: usize,
    plane: *mut u32,
    plane_count: usize,
    spans: *mut u32,
    span_count: usize,
    upright: *mut u32,
    upright_count: usize,
    slots: *mut u32,
    slot_count: usize,
    out: *mut u8,
    out_count: usize,
) -> Answer {
    let texts = [(offsets, offset_count), (sizes, size_count)];
    let numbers = [(rows, row_count), (regions, region_count)];
    let bytes = [(kinds, kind_count), (bytes, byte_count)];
    let lent = unsafe { lent_of(numbers, texts, bytes) };
    let numbers =
        [(plane, plane_count), (spans, span_count), (upright, upright_count), (slots, slot_count)];
    let call = unsafe { call(&numbers, &[], &LENT_SIZES, (out, out_count)) };
    let answer = plane_answer(&lent, &upright_of(&lent));
    call.end(answer.expect("the judge agrees with the Rust").outcome)
}

/// The plane of the caller's lists: rows and regions, offsets and lengths, kinds and bytes.
unsafe fn lent_of(
    [rows, regions]: [(*const u32, usize); 2],
    [offsets, lengths]: [(*const u32, usize); 2],
    [kinds, bytes]: [(*const u8, usize); 2],
) -> Lent {
    unsafe {
        Lent {
            row_lengths: wide(rows),
            kinds: wide(kinds),
            regions: wide(regions),
            offsets: wide(offsets),
            lengths: wide(lengths),
            bytes: list(bytes.0, bytes.1).to_vec(),
        }
    }
}

fn split_refusal(n: u64, a: usize) -> SplitAnswer {
    let Answer { n, a, b } = refusal(n, a as u64, 0);
    SplitAnswer { n, a, b, ..SplitAnswer::default() }
}

/// The end of a split that gives these values and this default.
fn rewritten(text: &[u8], scratch: &mut [u8], values: &str, default: &str) -> SplitAnswer {
    let (total, room) = (values.len(), scratch.len());
    if total + usize::from(is(Wrong::TooShortEarly)) > room {
        if is(Wrong::Touched(27)) && room > 0 {
            scratch[0] ^= 1;
        }
        return split_refusal(27, total);
    }
    scratch[..total].copy_from_slice(values.as_bytes());
    match WRONG.get() {
        Wrong::Front(0) if total > 0 => scratch[0] ^= 1,
        Wrong::Behind if room > total => scratch[total] ^= 1,
        _ => {}
    }
    let size = default.len();
    let places = 0..=text.len() - size;
    let mut places = places.filter(|from| &text[*from..from + size] == default.as_bytes());
    let from = places.next().expect("a part of the text");
    let more = |wrong| usize::from(is(wrong));
    SplitAnswer {
        rewritten: u64::from(!is(Wrong::Rewritten)),
        length: total + more(Wrong::Length),
        from: from + more(Wrong::From),
        to: from + size + more(Wrong::To),
        ..SplitAnswer::default()
    }
}

#[unsafe(no_mangle)]
unsafe extern "C" fn fezandimo_split_values(
    text: *const u8,
    text_count: usize,
    scratch: *mut u8,
    scratch_count: usize,
) -> SplitAnswer {
    let text = unsafe { list(text, text_count) };
    let mut scratch = unsafe { Slice::of(scratch, scratch_count) };
    if is(Wrong::PastOut) {
        scratch.write_past(0);
    }
    let scratch = scratch.0;
    match split_of(text) {
        Split::Own => {
            if is(Wrong::Copied) && scratch.len() >= text.len() {
                scratch[..text.len()].copy_from_slice(text);
            }
            SplitAnswer {
                length: text.len() * usize::from(is(Wrong::Length)),
                ..SplitAnswer::default()
            }
        }
        Split::Values(values, default) => rewritten(text, scratch, &values, &default),
        Split::IllFormed(place) => {
            if is(Wrong::Touched(1)) && !scratch.is_empty() {
                scratch[0] ^= 1;
            }
            split_refusal(1, place)
        }
    }
}
