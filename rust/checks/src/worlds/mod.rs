//! Seeded inputs for both implementations: valid and damaged dossiers, sound and unsound books and
//! tables, and runs of calls over them.

pub mod calendar;
pub mod columns;
pub mod damage;
pub mod dossier;
pub mod faults;
pub mod feeds;
pub mod fields;
pub mod passage;
pub mod perturb;
pub mod plan;
pub mod question;
pub mod random;
pub mod run;
pub mod state;
pub mod world;
