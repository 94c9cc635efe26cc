//! Section 6: the row rule.

use crate::layout::*;
use crate::passage::{Body, Row};

/// 6.1, table 17: J where the status moves, by the held status and, in it, by the status that is said.
const TABLE_17: [[char; 6]; 6] = [
    //  PLANNED CANCEL UNKNOWN DRIVING ARRIVED PASSED
    ['N', 'J', 'J', 'J', 'J', 'J'], // PLANNED
    ['J', 'J', 'N', 'J', 'J', 'J'], // CANCEL
    ['N', 'J', 'J', 'J', 'J', 'J'], // UNKNOWN
    ['N', 'J', 'J', 'J', 'J', 'J'], // DRIVING
    ['N', 'J', 'J', 'N', 'J', 'J'], // ARRIVED
    ['N', 'N', 'N', 'N', 'J', 'J'], // PASSED
];

/// 6.1: the status after an update.
fn status_after(held: u32, said: u32) -> u32 {
    match TABLE_17[held as usize][said as usize] {
        'J' => said,
        _ => held,
    }
}

/// 6.1: an optional of 255 leaves what is held.
fn optional_after(held: u32, said: u32) -> u32 {
    if said == KEPT {
        held
    } else {
        said
    }
}

/// 6.1: the row after an update: everything but the key is the update's, the status by table 17; heard becomes 1.
/// 6.2: a passage that the table lacks begins as PLANNED, show cancelled 1, flexible 0, monitored 0.
pub fn updated(held: Option<&Row>, update: &Body) -> Row {
    let (status, show_cancelled, flexible, monitored) = match held {
        Some(row) => (row.body.status, row.body.show_cancelled, row.body.flexible, row.body.monitored),
        None => (PLANNED, 1, FLEXIBLE_NOT_SAID, 0),
    };
    let body = Body {
        status: status_after(status, update.status),
        show_cancelled: optional_after(show_cancelled, update.show_cancelled),
        flexible: optional_after(flexible, update.flexible),
        monitored: optional_after(monitored, update.monitored),
        ..*update
    };
    Row { body, heard: 1 }
}
