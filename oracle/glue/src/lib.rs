//! Glue: the modules of the published library, and our oracle beside them.
pub mod array;
pub mod category;
pub mod finite_function;
pub mod indexed_coproduct;
pub mod operations;
pub mod oracle;
pub mod semifinite;
pub mod strict;
