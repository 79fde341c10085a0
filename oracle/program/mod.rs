//! The oracle: cases in, the published library's answers out. `README.md` gives both formats.
pub mod answers;
pub mod case;
pub mod operation_table;
pub mod refusals;
