//! Glue: re-exports the published files of this folder.
mod acyclic;
pub mod arrow;
mod object;

pub use arrow::*;
pub use object::*;
