//! The proved library, the typed crate above it, the rival and the model, held against each other: generated worlds of calls,
//! what a call leaves behind, what sides do not agree on, and how often each answer was met; fixed cases at the scope's borders, and
//! properties of whole days.
#![deny(unsafe_code)]

pub mod borders;
pub mod call;
pub mod case;
pub mod compare;
pub mod coverage;
pub mod difference;
pub mod feeding;
pub mod lend;
pub mod lines;
pub mod pages;
pub mod panel;
pub mod properties;
pub mod shrink;
pub mod sides;
pub mod tally;
pub mod worlds;
