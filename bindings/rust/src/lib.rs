//! Fezandimo, the reader of fare sheets: safe functions over its static library.

mod ffi;

use std::fmt;

/// The elements of the work slices.
const LAYER: usize = 15_360;
const SPANS: usize = 2_048;
const PLANE: usize = 4_160;
const SLOTS: usize = 12_480;
const BYTES: usize = 61_444;

/// Why a sheet, a lent plane or a text is refused: its number and what that tells, as in `fezandimo.h`.
#[derive(Debug, Clone, Copy, PartialEq, Eq)]
pub struct Refusal {
    pub n: u64,
    pub a: u64,
    pub b: u64,
}

impl Refusal {
    /// The output slice is too short for the record, or the scratch slice for the values: a tells the bytes needed.
    pub const OUTPUT_SLICE_SHORT: u64 = 27;
}

impl fmt::Display for Refusal {
    fn fmt(&self, f: &mut fmt::Formatter<'_>) -> fmt::Result {
        write!(f, "refused {} {} {}", self.n, self.a, self.b)
    }
}

impl std::error::Error for Refusal {}

/// The lists of a lent plane.
#[derive(Debug, Clone, Copy)]
pub struct LentPlane<'a> {
    /// The cells in each row.
    pub rows: &'a [u32],
    /// The kind of each cell, 0 to 7, row by row.
    pub kinds: &'a [u8],
    /// The region of each cell of kind 0; of other cells any number.
    pub regions: &'a [u32],
    /// The first byte of each region's text.
    pub offsets: &'a [u32],
    /// The bytes of each region's text.
    pub sizes: &'a [u32],
    /// The texts, in UTF-8.
    pub bytes: &'a [u8],
}

/// A reader with its work slices: one for any number of sheets and planes.
pub struct Reader {
    layers: [Vec<u32>; 4],
    spans: Vec<u32>,
    plane: Vec<u32>,
    upright: Vec<u32>,
    slots: Vec<u32>,
    bytes: Vec<u8>,
}

impl Default for Reader {
    fn default() -> Self {
        Self::new()
    }
}

impl Reader {
    pub fn new() -> Self {
        Self {
            layers: [LAYER; 4].map(|count| vec![0; count]),
            spans: vec![0; SPANS],
            plane: vec![0; PLANE],
            upright: vec![0; PLANE],
            slots: vec![0; SLOTS],
            bytes: vec![0; BYTES],
        }
    }

    /// Reads a sheet in UTF-8. Its record is the first bytes of `out`, as many as are told; behind them, and where the sheet is
    /// refused, `out` is unchanged.
    pub fn read_sheet(&mut self, sheet: &[u8], out: &mut [u8]) -> Result<usize, Refusal> {
        let [text, thins, bodies, grid] = &mut self.layers;
        // All slices are distinct and live, and none is null.
        let answer = unsafe {
            ffi::fezandimo_read_sheet(
                sheet.as_ptr(),
                sheet.len(),
                text.as_mut_ptr(),
                text.len(),
                thins.as_mut_ptr(),
                thins.len(),
                bodies.as_mut_ptr(),
                bodies.len(),
                grid.as_mut_ptr(),
                grid.len(),
                self.spans.as_mut_ptr(),
                self.spans.len(),
                self.bytes.as_mut_ptr(),
                self.bytes.len(),
                out.as_mut_ptr(),
                out.len(),
            )
        };
        told(answer)
    }

    /// Reads a lent plane; the record as for a sheet.
    pub fn read_lent_plane(&mut self, lent: &LentPlane, out: &mut [u8]) -> Result<usize, Refusal> {
        // All slices are distinct and live, and none is null.
        let answer = unsafe {
            ffi::fezandimo_read_lent_plane(
                lent.rows.as_ptr(),
                lent.rows.len(),
                lent.kinds.as_ptr(),
                lent.kinds.len(),
                lent.regions.as_ptr(),
                lent.regions.len(),
                lent.offsets.as_ptr(),
                lent.offsets.len(),
                lent.sizes.as_ptr(),
                lent.sizes.len(),
                lent.bytes.as_ptr(),
                lent.bytes.len(),
                self.plane.as_mut_ptr(),
                self.plane.len(),
                self.spans.as_mut_ptr(),
                self.spans.len(),
                self.upright.as_mut_ptr(),
                self.upright.len(),
                self.slots.as_mut_ptr(),
                self.slots.len(),
                out.as_mut_ptr(),
                out.len(),
            )
        };
        told(answer)
    }
}

/// The bytes of a record, or the refusal.
fn told(answer: ffi::Answer) -> Result<usize, Refusal> {
    let ffi::Answer { n, a, b } = answer;
    if n == 0 { Ok(a as usize) } else { Err(Refusal { n, a, b }) }
}

/// The allowed values of an output clause and its default.
#[derive(Debug, Clone, Copy, PartialEq, Eq)]
pub enum Split<'t, 's> {
    /// The text is its own allowed values, and there is no default.
    Own,
    /// The values, in the scratch slice, and the default, a part of the text.
    Rewritten { values: &'s [u8], default: &'t [u8] },
}

/// Splits the text of an output clause. A scratch slice as long as the text is enough.
pub fn split_values<'t, 's>(
    text: &'t [u8],
    scratch: &'s mut [u8],
) -> Result<Split<'t, 's>, Refusal> {
    // Both slices are live, and none is null.
    let answer = unsafe {
        ffi::fezandimo_split_values(text.as_ptr(), text.len(), scratch.as_mut_ptr(), scratch.len())
    };
    let ffi::SplitAnswer { n, a, b, rewritten, length, from, to } = answer;
    match (n, rewritten) {
        (0, 0) => Ok(Split::Own),
        (0, _) => Ok(Split::Rewritten { values: &scratch[..length], default: &text[from..to] }),
        _ => Err(Refusal { n, a, b }),
    }
}
