//! The slices that are lent to the port: what stands in them before a call, and what must stand in them after it.

use crate::noise::{Element, Noise};

/// Elements that a work slice may be longer than it must be.
pub const LONGER: usize = 300;
/// Elements behind the lent ones: the port must not reach them.
const BEHIND: usize = 16;

/// A slice as C has it.
pub type Raw<T> = (*mut T, usize);

/// A work slice.
struct Slice<T> {
    elements: Vec<T>,
    lent: usize,
    filling: usize,
}

impl<T: Element> Slice<T> {
    fn new(size: usize) -> Self {
        let elements = vec![T::default(); size + LONGER + BEHIND];
        Self { elements, lent: 0, filling: 0 }
    }

    /// Lends so many elements, with noise in them and behind them.
    fn lend(&mut self, count: usize, noise: &mut Noise) {
        self.lent = count;
        self.filling = noise.next_place();
        let whole = count + BEHIND;
        self.elements[..whole].copy_from_slice(&T::filling(noise, self.filling)[..whole]);
    }

    fn raw(&mut self) -> Raw<T> {
        (self.elements.as_mut_ptr(), self.lent)
    }

    fn is_zero(&self) -> bool {
        let all = self.elements[..self.lent].iter().fold(T::default(), |all, one| all | *one);
        all == T::default()
    }

    /// Whether the noise from an element on is as it was, also behind the lent elements.
    fn is_kept_from(&self, first: usize, noise: &Noise) -> bool {
        let elements = first..self.lent + BEHIND;
        self.elements[elements.clone()] == T::filling(noise, self.filling)[elements]
    }

    /// What is wrong with the slice after a call that must leave it as it was, or clear it.
    fn wrong(&self, is_kept: bool, noise: &Noise) -> Option<&'static str> {
        if !self.is_kept_from(self.lent, noise) {
            return Some("is written behind its end");
        }
        match is_kept {
            true => (!self.is_kept_from(0, noise)).then_some("is changed"),
            false => (!self.is_zero()).then_some("is not cleared"),
        }
    }
}

/// The work slices of an entry: those of numbers, then those of bytes.
pub struct Works {
    numbers: Vec<Slice<u32>>,
    bytes: Vec<Slice<u8>>,
}

impl Works {
    /// Slices of these sizes and more, so many of them of numbers.
    pub fn new(sizes: &[usize], numbers: usize) -> Self {
        let (numbers, bytes) = sizes.split_at(numbers);
        Self {
            numbers: numbers.iter().map(|size| Slice::new(*size)).collect(),
            bytes: bytes.iter().map(|size| Slice::new(*size)).collect(),
        }
    }

    pub fn lend(&mut self, counts: &[usize], noise: &mut Noise) {
        let (numbers, bytes) = counts.split_at(self.numbers.len());
        for (slice, count) in self.numbers.iter_mut().zip(numbers) {
            slice.lend(*count, noise);
        }
        for (slice, count) in self.bytes.iter_mut().zip(bytes) {
            slice.lend(*count, noise);
        }
    }

    pub fn numbers<const N: usize>(&mut self) -> [Raw<u32>; N] {
        std::array::from_fn(|index| self.numbers[index].raw())
    }

    pub fn bytes<const N: usize>(&mut self) -> [Raw<u8>; N] {
        std::array::from_fn(|index| self.bytes[index].raw())
    }

    /// The first slice that is not as it must be after a call, and why.
    pub fn wrong(&self, is_kept: bool, noise: &Noise) -> Option<String> {
        let numbers = self.numbers.iter().map(|slice| slice.wrong(is_kept, noise));
        let bytes = self.bytes.iter().map(|slice| slice.wrong(is_kept, noise));
        let mut all = numbers.chain(bytes).enumerate();
        all.find_map(|(index, wrong)| wrong.map(|wrong| format!("work slice {index} {wrong}")))
    }
}

/// The slice that a record, or the allowed values of a split, are written to.
#[derive(Default)]
pub struct Out {
    bytes: Vec<u8>,
    before: Vec<u8>,
    lent: usize,
}

impl Out {
    /// Lends so many bytes, with noise in them and behind them.
    pub fn lend(&mut self, count: usize, noise: &mut Noise) {
        self.lent = count;
        self.before.clear();
        while self.before.len() < count + BEHIND {
            let place = noise.next_place();
            let filling = u8::filling(noise, place);
            let left = count + BEHIND - self.before.len();
            self.before.extend_from_slice(&filling[..left.min(filling.len())]);
        }
        self.bytes.clone_from(&self.before);
    }

    pub fn raw(&mut self) -> Raw<u8> {
        (self.bytes.as_mut_ptr(), self.lent)
    }

    /// What is wrong after a call that must write these bytes in front and nothing else.
    pub fn wrong(&self, written: &[u8]) -> Option<String> {
        let (front, rest) = self.bytes.split_at(written.len());
        let differ = |left: &[u8], right: &[u8]| left.iter().zip(right).position(|(l, r)| l != r);
        if let Some(at) = differ(front, written) {
            return Some(format!("byte {at} is {}, the Rust's is {}", front[at], written[at]));
        }
        let at = differ(rest, &self.before[written.len()..])? + written.len();
        Some(format!("byte {at} of the output slice of {} bytes is changed", self.lent))
    }
}
