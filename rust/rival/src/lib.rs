//! A second implementation of the calls, from the scope and docs/DECISIONS.md, without sight of the proved code.

mod answer;
mod board;
mod book;
mod dates;
mod feed;
mod index;
mod lanes;
mod message;
mod open;
mod passage;
mod rows;
mod sorted;
mod staging;
mod stream;
mod syntax;
mod table;
mod types;
mod withdraw;

pub use board::board;
pub use feed::{feed, feed_begin, feed_end};
pub use message::message;
pub use open::open;
pub use withdraw::withdraw;
