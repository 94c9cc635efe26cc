//! What the benchmark has beside its cases: the proved library's ways of working, in Rust.

pub mod ways;
