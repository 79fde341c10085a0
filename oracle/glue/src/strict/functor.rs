//! Glue: named by the published `strict/mod.rs`, and needed by nothing here.
