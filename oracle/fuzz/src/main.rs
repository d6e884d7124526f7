//! What the fuzzer calls: the first byte chooses the entry, the others are its input.

#![no_main]

use judge::count::Counts;
use judge::lent::Lent;
use judge::outcome::silence_the_rust;
use judge::packed::unpack;
use linked::compare::Single;
use linked::inputs::fits;
use linked::rooms;
use linked::shrink::Drawn;
use linked::workers::Run;
use std::cell::RefCell;

const RUN: Run = Run { seed: 1, jobs: 1 };

/// The desks of the three entries.
struct Desks {
    sheets: Single<Drawn>,
    planes: Single<Lent>,
    texts: Single<Vec<u8>>,
}

thread_local! {
    static DESKS: RefCell<Desks> = RefCell::new(Desks {
        sheets: Single::new(RUN, |_| true),
        planes: Single::new(RUN, fits),
        texts: Single::new(RUN, |_| true),
    });
}

/// Most rows, and most cells in a row, of a plane that is not made of lists.
const MOST: usize = 10;

/// A plane: six packed lists behind a byte of 255; else a byte for the rows, one for the cells of each, one for each cell (its kind and
/// its region), and the texts, a line each.
fn plane(bytes: &[u8]) -> Option<Lent> {
    let (first, rest) = bytes.split_first()?;
    if *first == 255 {
        return unpack(rest);
    }
    let mut rest = rest.iter().copied();
    let mut lent = Lent::default();
    for _ in 0..usize::from(*first) % MOST {
        lent.row_lengths.push(u64::from(rest.next()?) % MOST as u64);
    }
    for _ in 0..lent.row_lengths.iter().sum() {
        let cell = u64::from(rest.next()?);
        lent.kinds.push(cell % 8);
        lent.regions.push(cell / 8);
    }
    lent.bytes = rest.collect();
    let mut offset = 0;
    for text in lent.bytes.split(|byte| *byte == b'\n') {
        lent.offsets.push(offset);
        lent.lengths.push(text.len() as u64);
        offset += text.len() as u64 + 1;
    }
    Some(lent)
}

/// A number for the rooms of an input.
fn number(bytes: &[u8]) -> u64 {
    let hash = |hash: u64, byte: &u8| (hash ^ u64::from(*byte)).wrapping_mul(0x100_0000_01B3);
    bytes.iter().fold(0xCBF2_9CE4_8422_2325, hash)
}

fn compared(bytes: &[u8]) -> Result<(), String> {
    let Some((entry, input)) = bytes.split_first() else { return Ok(()) };
    let (case, counts) = (number(bytes), &mut Counts::default());
    DESKS.with_borrow_mut(|desks| match entry % 3 {
        0 => desks.sheets.compared(Drawn(input.to_vec()), case, rooms::some, counts),
        1 => match plane(input).filter(fits) {
            Some(lent) => desks.planes.compared(lent, case, rooms::some, counts),
            None => Ok(()),
        },
        _ => desks.texts.compared(input.to_vec(), case, rooms::some, counts),
    })
}

#[unsafe(no_mangle)]
extern "C" fn LLVMFuzzerTestOneInput(data: *const u8, count: usize) -> i32 {
    silence_the_rust();
    let bytes = if count == 0 { &[][..] } else { unsafe { std::slice::from_raw_parts(data, count) } };
    if let Err(what) = compared(bytes) {
        eprintln!("a difference, {what}");
        std::process::abort();
    }
    0
}
