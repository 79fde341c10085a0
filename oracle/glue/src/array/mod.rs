//! Glue: the array traits and their one backend.
mod traits;
pub mod vec;

pub use traits::*;
