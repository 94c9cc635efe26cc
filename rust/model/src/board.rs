//! Section 8: boards.

use crate::answer::Refusal;
use crate::dates::{is_date, moment};
use crate::day::sound_table;
use crate::layout::*;
use crate::passage::{Row, Text};
use crate::types::padded;

/// 8.1: a question.
struct Question {
    owner: Text,
    stop: Text,
    now: u64,
    horizon: u64,
}

/// Board, with its three numbers: 0, how many places were written, how many passages are shown in all (8.3).
#[allow(clippy::too_many_arguments)]
pub fn board(
    owner: &[u8],
    stop: &[u8],
    date: u32,
    second: u32,
    horizon: u32,
    table: &[u8],
    rows: u64,
    places: &mut [u32],
) -> [u64; 3] {
    match shown_places(owner, stop, date, second, horizon, table, rows) {
        Ok(shown) => {
            let written = shown.len().min(places.len());
            places[..written].copy_from_slice(&shown[..written]);
            [0, written as u64, shown.len() as u64]
        }
        Err(refusal) => refusal.numbers(),
    }
}

/// 7.1: 1, then 13. 8.3: the places of the rows shown, by departure moment, then key; places rise as keys do.
fn shown_places(
    owner: &[u8],
    stop: &[u8],
    date: u32,
    second: u32,
    horizon: u32,
    table: &[u8],
    rows: u64,
) -> Result<Vec<u32>, Refusal> {
    let table = sound_table(table, rows).ok_or(Refusal::Unsound)?;
    let question = question(owner, stop, date, second, horizon).ok_or(Refusal::OutOfRange)?;
    let by_place = (0..).zip(table.values());
    let mut shown: Vec<(u64, u32)> =
        by_place.filter(|(_, row)| is_shown(row, &question)).map(|(place, row)| (departure(row), place)).collect();
    shown.sort();
    Ok(shown.iter().map(|(_, place)| *place).collect())
}

/// 8.1: owner and stop of 1 to 10 bytes of 32 to 126, not padded; a date of 2000 to 2099; a second of the day; a horizon to 86,400.
fn question(owner: &[u8], stop: &[u8], date: u32, second: u32, horizon: u32) -> Option<Question> {
    let (owner, stop) = (padded(owner)?, padded(stop)?);
    if !is_date(date) || second > 86_399 || horizon > 86_400 {
        return None;
    }
    Some(Question { owner, stop, now: moment(date, second), horizon: u64::from(horizon) })
}

/// 2.5: a row's departure as a moment.
fn departure(row: &Row) -> u64 {
    moment(row.body.key.date, row.body.departure)
}

/// 8.2: the show rule, a line each.
fn is_shown(row: &Row, question: &Question) -> bool {
    let body = &row.body;
    body.key.owner == question.owner
        && body.key.stop == question.stop
        && body.stop_type != LAST
        && body.status != PASSED
        && departure(row) >= question.now
        && departure(row) <= question.now + question.horizon
        && (body.status != CANCEL || body.show_cancelled == 1)
        && (body.flexible == FLEXIBLE_NOT_SAID
            || body.flexible == FLEXIBLE_TRUE
            || body.flexible == FLEXIBLE_REALTIME && body.monitored == 1)
        && (body.key.fortify == 0 || row.heard == 1)
}
