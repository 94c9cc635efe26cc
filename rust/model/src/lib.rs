//! The model: docs/SCOPE.md said once more in plain Rust, to judge the proved library and the rival by.
//!
//! It is a judge and nothing else. Lent bytes become plain structs, the work is done on vectors and maps, and the structs become bytes
//! again. Nothing is done for speed, and every function names the clause that it says. The model was written from docs/SCOPE.md and
//! docs/DECISIONS.md alone and shares nothing with the other sides: the layout here is its own copy. Where it agrees with them on a point
//! that was decided there, that is no evidence for the decision.

#![forbid(unsafe_code)]

mod answer;
mod board;
mod columns;
mod dates;
mod day;
mod feed;
mod form;
mod layout;
mod message;
mod open;
mod passage;
mod reading;
mod row_rule;
mod types;
mod withdraw;

pub use board::board;
pub use feed::{feed, feed_begin, feed_end};
pub use message::message;
pub use open::open;
pub use withdraw::withdraw;
