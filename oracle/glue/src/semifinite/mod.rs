//! Glue: re-exports the published file of this folder.
mod types;

pub use types::*;
