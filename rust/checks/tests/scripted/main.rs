//! Scripted cases, each tried on every side: what is written here is what the scope says, not what a side does.

mod cases;
mod desk;
mod feeds;
mod forms;
mod random;
mod refusals;
