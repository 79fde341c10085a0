//! Glue: arrays backed by `Vec`.
mod connected_components;
mod vec_array;

pub use vec_array::*;
