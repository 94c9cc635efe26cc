//! The borders of the scope, against the proved library, the rival and the model.

use checks::borders::CHECKS;
use checks::panel::run_part;

#[test]
fn boards() {
    run_part(CHECKS, "boards::");
}

#[test]
fn feeds() {
    run_part(CHECKS, "feeds::");
}

#[test]
fn fields() {
    run_part(CHECKS, "fields::");
}

#[test]
fn forms() {
    run_part(CHECKS, "forms::");
}

#[test]
fn refusals() {
    run_part(CHECKS, "refusals::");
}

#[test]
fn rows() {
    run_part(CHECKS, "rows::");
}

#[test]
fn sizes() {
    run_part(CHECKS, "sizes::");
}

#[test]
fn sound() {
    run_part(CHECKS, "sound::");
}
