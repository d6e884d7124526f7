//! How long the lent slices are, and what the port must answer for that.

use crate::slices::LONGER;
use judge::generate::random::Random;
use judge::limits::RECORD_BYTES;
use judge::outcome::{Outcome, refused};
use std::fmt;

/// The elements of the lent slices.
#[derive(Debug, Clone, PartialEq, Eq)]
pub struct Room {
    pub works: Vec<usize>,
    pub out: usize,
}

impl fmt::Display for Room {
    fn fmt(&self, f: &mut fmt::Formatter<'_>) -> fmt::Result {
        write!(f, "lent: work slices {:?}, an output slice of {} bytes", self.works, self.out)
    }
}

impl Room {
    /// What an input with such an answer comes to in this room: 28 before all else, 27 behind all else.
    pub fn outcome(&self, answer: &Outcome, sizes: &[usize]) -> Outcome {
        let short = self.works.iter().zip(sizes).position(|(lent, size)| lent < size);
        match short {
            Some(slice) => refused(28, slice.into(), sizes[slice].into()),
            None => answer.clone().within(self.out),
        }
    }

    /// The room for an input that writes other bytes, or none: as much longer or shorter than these as it was.
    pub fn for_bytes(&self, old: Option<usize>, new: Option<usize>) -> Self {
        let out = match (old, new) {
            (Some(old), Some(new)) => (self.out + new).saturating_sub(old),
            _ => self.out,
        };
        Self { works: self.works.clone(), out }
    }
}

/// Every room at an edge for such an input: just enough, one byte too few or more, none; each work slice an element too short or
/// longer, each empty, all empty, all longer.
pub fn edges(_: &mut Random, sizes: &[usize], record: Option<usize>) -> Vec<Room> {
    let bytes = record.unwrap_or(0);
    let with = |works: Vec<usize>, out| Room { works, out };
    let outs =
        [bytes, bytes.saturating_sub(1), bytes + 1, bytes.saturating_sub(40), 0, RECORD_BYTES];
    let mut rooms: Vec<Room> = outs.iter().map(|out| with(sizes.to_vec(), *out)).collect();
    for slice in 0..sizes.len() {
        for count in [sizes[slice] - 1, 0, sizes[slice] + 1] {
            let mut works = sizes.to_vec();
            works[slice] = count;
            rooms.push(with(works, bytes));
        }
    }
    rooms.push(with(vec![0; sizes.len()], 0));
    rooms.push(with(sizes.iter().map(|size| size - 1).collect(), bytes));
    rooms.push(with(sizes.iter().map(|size| size + LONGER).collect(), bytes + LONGER));
    rooms
}

/// The rooms for an input that writes so many bytes, or none: always one that has room for its answer; now and then one that is too
/// short for the bytes, and one with short work slices.
pub fn some(random: &mut Random, sizes: &[usize], record: Option<usize>) -> Vec<Room> {
    let mut rooms = vec![Room { works: works(random, sizes), out: enough(random, record) }];
    if let Some(bytes @ 1..) = record
        && random.once_in(8)
    {
        rooms.push(Room { works: works(random, sizes), out: too_few(random, bytes) });
    }
    if !sizes.is_empty() && random.once_in(16) {
        let works = works(random, sizes);
        let works = shortened(random, works, sizes);
        rooms.push(Room { works, out: enough(random, record) });
    }
    rooms
}

/// Work slices that are as long as they must be or, now and then, some of them longer.
fn works(random: &mut Random, sizes: &[usize]) -> Vec<usize> {
    let mut works = sizes.to_vec();
    if random.once_in(8) {
        for count in &mut works {
            *count += random.pick(&[0, 1, LONGER]);
        }
    }
    works
}

/// One slice is an element short or, now and then, more, or another one too.
fn shortened(random: &mut Random, mut works: Vec<usize>, sizes: &[usize]) -> Vec<usize> {
    for _ in 0..random.pick(&[1, 1, 1, 2]) {
        let slice = random.below(works.len());
        let size = sizes[slice];
        works[slice] = if random.chance(75) { size - 1 } else { random.below(size) };
    }
    works
}

/// Bytes for a record, exactly as many or more; any number where there is none.
fn enough(random: &mut Random, record: Option<usize>) -> usize {
    match (random.below(8), record) {
        (0, record) => record.unwrap_or(0),
        (1, record) => record.unwrap_or(0).max(RECORD_BYTES),
        (_, Some(bytes)) => bytes + random.between(1, 100),
        (_, None) => random.below(300),
    }
}

/// Bytes that a record does not fit in: mostly one too few.
fn too_few(random: &mut Random, bytes: usize) -> usize {
    match random.below(4) {
        0 => random.below(bytes),
        1 => random.below(bytes.min(48)),
        _ => bytes - 1,
    }
}
