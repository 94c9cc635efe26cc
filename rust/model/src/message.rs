//! 7.3: message.

use crate::answer::{numbers_of_day, Accepted, Refusal};
use crate::columns::message_table;
use crate::day::{
    book_room, registered, sound_book, sound_register, sound_table, table_room, write_book, write_table, Update,
};
use crate::layout::*;
use crate::passage::{Body, Key};
use crate::reading::{read, Read};
use crate::row_rule::updated;

/// Message, with its six numbers.
#[allow(clippy::too_many_arguments)]
pub fn message(
    dossier: &[u8],
    sender: u8,
    form: u32,
    register: &[u8],
    book: &mut [u8],
    table: &mut [u8],
    used: u64,
    rows: u64,
) -> [u64; 6] {
    let outcome = taken(|| said(dossier, sender, form, register), sender, register, book, table, used, rows);
    numbers_of_day(outcome.map_err(|refusal| (refusal, 0)), used, rows)
}

/// 7.1: 1, then what `said` refuses or the rows that it gives, then 7, then 8. A message without rows is accepted as number 0, from anybody,
/// and changes nothing.
pub fn taken(
    said: impl Fn() -> Result<Vec<Body>, Refusal>,
    sender: u8,
    register: &[u8],
    book: &mut [u8],
    table: &mut [u8],
    used: u64,
    rows: u64,
) -> Result<Accepted, Refusal> {
    if !sound_register(register) {
        return Err(Refusal::Unsound);
    }
    let mut entries = sound_book(book, used).ok_or(Refusal::Unsound)?;
    let mut passages = sound_table(table, rows).ok_or(Refusal::Unsound)?;
    let bodies = said()?;
    let number = if bodies.is_empty() { 0 } else { 1 + entries.updates.last().map_or(0, |last| last.number) };
    for body in &bodies {
        entries.updates.push(Update { kind: STANDING, number, sender, body: *body });
        let row = updated(passages.get(&body.key), body);
        passages.insert(body.key, row);
    }
    if entries.plan.len() * PLAN_BYTES + entries.updates.len() * UPDATE_BYTES > book_room(book) {
        return Err(Refusal::BookShort);
    }
    if passages.len() > table_room(table) {
        return Err(Refusal::TableShort);
    }
    let used = write_book(book, &entries);
    let rows = write_table(table, &passages);
    Ok(Accepted { value: number, used, rows })
}

/// Refusal 18, of a form that is not known; 2 to 5 and 15, read in that form; and 5.4, refusal 6: the first line whose owner is not
/// registered for the sender; else what the rows say.
fn said(dossier: &[u8], sender: u8, form: u32, register: &[u8]) -> Result<Vec<Body>, Refusal> {
    let table = message_table(form).ok_or(Refusal::UnknownForm)?;
    let rows = read(dossier, table)?;
    match rows.iter().find(|row| !registered(register, sender, &row.text("DataOwnerCode"))) {
        Some(row) => Err(Refusal::NotRegistered { line: row.line }),
        None => Ok(rows.iter().map(update_body).collect()),
    }
}

/// 3.3: the body of an update. An optional that is absent or has no content is kept as 255, a missing time as 16,777,215 (3.4). 3.1: what a
/// row has where is the same in both forms, each of which has a name of its own for show cancelled.
pub fn update_body(row: &Read) -> Body {
    let show_cancelled = row.number_if_any("ShowCancelledTrip").or(row.number_if_any("ShowCancelledJourney"));
    Body {
        key: Key {
            owner: row.text("DataOwnerCode"),
            date: row.number("OperationDate"),
            line: row.text("LinePlanningNumber"),
            journey: row.number("VehicleJourneyNumber"),
            fortify: row.number("FortifyOrderNumber"),
            stop: row.text("UserStopCode"),
            order: row.number("UserStopOrderNumber"),
        },
        destination: row.text("DestinationCode"),
        timestamp: row.number("LastUpdateTimeStamp"),
        status: row.number("TripStopStatus"),
        arrival: row.number_if_any("ExpectedArrivalTime").unwrap_or(NO_TIME),
        departure: row.number_if_any("ExpectedDepartureTime").unwrap_or(NO_TIME),
        stop_type: row.number("JourneyStopType"),
        show_cancelled: show_cancelled.unwrap_or(KEPT),
        flexible: row.number_if_any("ShowFlexibleTrip").unwrap_or(KEPT),
        monitored: row.number_if_any("Monitored").unwrap_or(KEPT),
    }
}
