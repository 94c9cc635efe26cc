//! What must hold of days whatever every side says of them, against the proved library, the rival and the model.

use checks::panel::run_part;
use checks::properties::CHECKS;

#[test]
fn withdrawal_restores() {
    run_part(CHECKS, "properties::withdrawal_restores");
}

#[test]
fn columns_in_any_order() {
    run_part(CHECKS, "properties::columns_in_any_order");
}

#[test]
fn lines_in_any_order() {
    run_part(CHECKS, "properties::lines_in_any_order");
}

#[test]
fn places_are_a_prefix() {
    run_part(CHECKS, "properties::places_are_a_prefix");
}

#[test]
fn replay_of_standing_rows() {
    run_part(CHECKS, "properties::replay_of_standing_rows");
}

#[test]
fn entries_as_meant() {
    run_part(CHECKS, "properties::entries_as_meant");
}

#[test]
fn forms_alike() {
    run_part(CHECKS, "properties::forms_alike");
}
