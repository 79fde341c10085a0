//! Glue: re-exports the published file of this folder.
mod arrow;

pub use arrow::*;
