//! Stand-in for the crate root: the modules of the Rust, all of them public.

pub mod builder;
pub mod canvas;
pub mod errors;
pub mod markdown;
pub mod model;
pub mod plane;
pub mod point;
pub mod recognizer;
pub mod rect;
pub mod utils;

pub use builder::from_unicode;
pub use markdown::from_markdown;
pub use model::*;
pub use recognizer::Recognizer;
