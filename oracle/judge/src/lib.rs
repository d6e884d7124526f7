//! The judge: what the unchanged Rust answers to sheets, drawings, lent planes and value splits, with the
//! tests that the Rust does not know (numbers 1, 2, 7, 26 and 27) added in the order of document 01.

pub mod canvas;
pub mod clauses;
pub mod count;
pub mod drawing;
pub mod generate;
pub mod lent;
pub mod limits;
pub mod line;
pub mod messages;
pub mod outcome;
pub mod packed;
pub mod placement;
pub mod record;
pub mod rows;
pub mod sheet;
pub mod sizes;
pub mod split;
pub mod told;
pub mod upright;
