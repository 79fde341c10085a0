//! The strict analysis of open hypergraphs: layers, cycles, convexity, evaluation. Ported from the Rust crate
//! [open-hypergraphs](https://github.com/hellas-ai/open-hypergraphs) to Rattle and proved; this crate lends Rust
//! slices to the proved calls.
//!
//! A [`Drawing`] has labelled nodes and labelled operations; each operation lists its sources and its targets. A
//! [`Maps`] selects a part of a drawing, a [`Boundary`] says where values go in and come out. All three borrow their
//! lists. Any lists may be given: a call that cannot take them says why, as a [`Refusal`].
//!
//! ```
//! use tiwelzam::{Drawing, Workspace};
//!
//! // Operations 0 to 1, 1 to 2, and 0 to 2.
//! let drawing = Drawing {
//!     nodes: &[0, 0, 0],
//!     operations: &[0, 0, 0],
//!     source_lengths: &[1, 1, 1],
//!     sources: &[0, 1, 0],
//!     target_lengths: &[1, 1, 1],
//!     targets: &[1, 2, 2],
//! };
//! let mut workspace = Workspace::new();
//! assert!(drawing.is_acyclic(&mut workspace)?);
//! let layered = drawing.layered_operations(&mut workspace)?;
//! let layers: Vec<&[u32]> = layered.layers().collect();
//! assert_eq!(layers, [&[0, 2][..], &[1], &[]]);
//! # Ok::<(), tiwelzam::Refusal>(())
//! ```
//!
//! Two forms of each call: one that makes its results and grows a [`Workspace`], and one that is lent memory (its name
//! ends in `_into`, or in `_in` where there is only a workspace to lend) and takes nothing else. What the second form
//! leaves in lent memory is part of the proved promise:
//!
//! - An output longer than needed keeps its tail, and a refusal keeps all of it.
//! - The workspace must have W = 8(n + m) + 2(S + T) + 8 words ([`Drawing::workspace_need`]), of the target drawing
//!   where there are two. What it holds on entry is of no consequence. Refused with 1, 2, 3, 4, 11 or 12, a call leaves
//!   it untouched; every other call leaves its first W words zero and the rest untouched.
//!
//! [`LIMIT`] and [`VALUES_LIMIT`] are the limits; beyond them every call refuses with 1, so the first form makes no
//! results that are larger.
#![deny(missing_docs)]

mod boundary;
mod calls;
mod drawing;
mod layers;
mod maps;
mod refusal;
mod table;
mod workspace;

pub use boundary::Boundary;
pub use drawing::{Drawing, Layering};
pub use layers::{layer_at, offsets_sound, LayeredOperations, Layers};
pub use maps::{Map, Maps};
pub use refusal::Refusal;
pub use table::Table;
pub use workspace::Workspace;

/// The most nodes, operations, map entries, boundary entries, input values, and the largest declared target.
pub const LIMIT: usize = 4096;

/// The most source values, and the most target values.
pub const VALUES_LIMIT: usize = 16384;
