//! The limits of document 01, each in one place.

/// Rows of a canvas.
pub const CANVAS_ROWS: usize = 96;
/// Characters in a row of a canvas.
pub const CANVAS_COLUMNS: usize = 160;
/// Regions of a canvas or of a lent plane.
pub const REGIONS: usize = 1_024;
/// Bytes of all region texts of a canvas, or of a lent plane's byte slice.
pub const TEXT_BYTES: usize = 61_440;
/// Rows of a plane.
pub const PLANE_ROWS: usize = 64;
/// Cells in a row of a plane.
pub const PLANE_CELLS: usize = 64;
/// Kinds of cells, in the order of `Cell`.
pub const KINDS: u64 = 8;
/// Bytes of the record slice, if not told otherwise.
pub const RECORD_BYTES: usize = 61_440;
