//! The three entries of the port.

use crate::slices::{Out, Works};

#[cfg(not(test))]
const _: &str = env!("PORT_LIB", "PORT_LIB names the folder of libexports.a");

/// n = 0: a record of a bytes; else a refusal's numbers.
#[repr(C)]
#[derive(Debug, Default, Clone, Copy, PartialEq, Eq)]
pub struct Answer {
    pub n: u64,
    pub a: u64,
    pub b: u64,
}

/// n = 0: the text's own values, or where those that are rewritten and the default stand; else a refusal's numbers.
#[repr(C)]
#[derive(Debug, Default, Clone, Copy, PartialEq, Eq)]
pub struct SplitAnswer {
    pub n: u64,
    pub a: u64,
    pub b: u64,
    pub rewritten: u64,
    pub length: usize,
    pub from: usize,
    pub to: usize,
}

#[cfg_attr(not(test), link(name = "exports", kind = "static"))]
unsafe extern "C" {
    fn fezandimo_read_sheet(
        sheet: *const u8,
        sheet_count: usize,
        text: *mut u32,
        text_count: usize,
        thins: *mut u32,
        thin_count: usize,
        bodies: *mut u32,
        body_count: usize,
        grid: *mut u32,
        grid_count: usize,
        spans: *mut u32,
        span_count: usize,
        bytes: *mut u8,
        byte_count: usize,
        out: *mut u8,
        out_count: usize,
    ) -> Answer;

    fn fezandimo_read_lent_plane(
        rows: *const u32,
        row_count: usize,
        kinds: *const u8,
        kind_count: usize,
        regions: *const u32,
        region_count: usize,
        offsets: *const u32,
        offset_count: usize,
        sizes: *const u32,
        size_count: usize,
        bytes: *const u8,
        byte_count: usize,
        plane: *mut u32,
        plane_count: usize,
        spans: *mut u32,
        span_count: usize,
        upright: *mut u32,
        upright_count: usize,
        slots: *mut u32,
        slot_count: usize,
        out: *mut u8,
        out_count: usize,
    ) -> Answer;

    fn fezandimo_split_values(
        text: *const u8,
        text_count: usize,
        scratch: *mut u8,
        scratch_count: usize,
    ) -> SplitAnswer;
}

/// The least elements of the whole reader's work slices: text, thins, bodies, grid, spans and bytes.
pub const SHEET_SIZES: [usize; 6] = [15_360, 15_360, 15_360, 15_360, 2_048, 61_444];

/// The whole reader.
pub fn read_sheet(sheet: &[u8], works: &mut Works, out: &mut Out) -> Answer {
    let [text, thins, bodies, grid, spans] = works.numbers();
    let [bytes] = works.bytes();
    let out = out.raw();
    unsafe {
        fezandimo_read_sheet(
            sheet.as_ptr(),
            sheet.len(),
            text.0,
            text.1,
            thins.0,
            thins.1,
            bodies.0,
            bodies.1,
            grid.0,
            grid.1,
            spans.0,
            spans.1,
            bytes.0,
            bytes.1,
            out.0,
            out.1,
        )
    }
}

/// The lists of a lent plane as the port takes them.
pub struct Lists<'a> {
    pub rows: &'a [u32],
    pub kinds: &'a [u8],
    pub regions: &'a [u32],
    pub offsets: &'a [u32],
    pub sizes: &'a [u32],
    pub bytes: &'a [u8],
}

/// The least elements of the work slices for a lent plane: plane, spans, upright and slots.
pub const LENT_SIZES: [usize; 4] = [4_160, 2_048, 4_160, 12_480];

/// The table of a lent plane.
pub fn read_lent_plane(lent: &Lists, works: &mut Works, out: &mut Out) -> Answer {
    let [plane, spans, upright, slots] = works.numbers();
    let out = out.raw();
    unsafe {
        fezandimo_read_lent_plane(
            lent.rows.as_ptr(),
            lent.rows.len(),
            lent.kinds.as_ptr(),
            lent.kinds.len(),
            lent.regions.as_ptr(),
            lent.regions.len(),
            lent.offsets.as_ptr(),
            lent.offsets.len(),
            lent.sizes.as_ptr(),
            lent.sizes.len(),
            lent.bytes.as_ptr(),
            lent.bytes.len(),
            plane.0,
            plane.1,
            spans.0,
            spans.1,
            upright.0,
            upright.1,
            slots.0,
            slots.1,
            out.0,
            out.1,
        )
    }
}

/// The value split.
pub fn split_values(text: &[u8], scratch: &mut Out) -> SplitAnswer {
    let scratch = scratch.raw();
    unsafe { fezandimo_split_values(text.as_ptr(), text.len(), scratch.0, scratch.1) }
}
