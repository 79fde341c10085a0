//! Glue: indexed coproducts, and the walks over their segments.
mod arrow;
mod segments;

pub use arrow::*;
