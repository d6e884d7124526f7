//! The functions of the static library, as `fezandimo.h` has them.

#[repr(C)]
pub struct Answer {
    pub n: u64,
    pub a: u64,
    pub b: u64,
}

#[repr(C)]
pub struct SplitAnswer {
    pub n: u64,
    pub a: u64,
    pub b: u64,
    pub rewritten: u64,
    pub length: usize,
    pub from: usize,
    pub to: usize,
}

#[link(name = "exports", kind = "static")]
unsafe extern "C" {
    pub fn fezandimo_read_sheet(
        sheet: *const u8,
        sheet_count: usize,
        text: *mut u32,
        text_count: usize,
        thins: *mut u32,
        thin_count: usize,
        bodies: *mut u32,
        body_count: usize,
        grid: *mut u32,
        grid_count: usize,
        spans: *mut u32,
        span_count: usize,
        bytes: *mut u8,
        byte_count: usize,
        out: *mut u8,
        out_count: usize,
    ) -> Answer;

    pub fn fezandimo_read_lent_plane(
        rows: *const u32,
        row_count: usize,
        kinds: *const u8,
        kind_count: usize,
        regions: *const u32,
        region_count: usize,
        offsets: *const u32,
        offset_count: usize,
        sizes: *const u32,
        size_count: usize,
        bytes: *const u8,
        byte_count: usize,
        plane: *mut u32,
        plane_count: usize,
        spans: *mut u32,
        span_count: usize,
        upright: *mut u32,
        upright_count: usize,
        slots: *mut u32,
        slot_count: usize,
        out: *mut u8,
        out_count: usize,
    ) -> Answer;

    pub fn fezandimo_split_values(
        text: *const u8,
        text_count: usize,
        scratch: *mut u8,
        scratch_count: usize,
    ) -> SplitAnswer;
}
