//! 7.2: open.

use std::collections::{BTreeMap, BTreeSet};

use crate::answer::{numbers_of_day, Accepted, Refusal};
use crate::columns::{CALENDAR, PLANNING};
use crate::day::{book_room, table_room, write_book, write_table, Book, Table};
use crate::layout::*;
use crate::passage::{Body, Key, Row, Text};
use crate::reading::{read, Read};

/// Open, with its six numbers. The counts that are passed are only given back on a refusal.
pub fn open(planning: &[u8], calendar: &[u8], book: &mut [u8], table: &mut [u8], used: u64, rows: u64) -> [u64; 6] {
    numbers_of_day(opened(planning, calendar, book, table), used, rows)
}

/// 7.1: the planning through 2, 3, 15, 4 and 5, the calendar through the same, then 7, 9, 8.
fn opened(planning: &[u8], calendar: &[u8], book: &mut [u8], table: &mut [u8]) -> Result<Accepted, (Refusal, u64)> {
    let pass_times = read(planning, &PLANNING).map_err(|refusal| (refusal, 1))?;
    let validities = read(calendar, &CALENDAR).map_err(|refusal| (refusal, 2))?;
    let plan = plan(&pass_times, &validities, book_room(book), table_room(table)).map_err(|refusal| (refusal, 0))?;
    let rows: Table = plan.iter().map(|body| (body.key, Row { body: *body, heard: 0 })).collect();
    let used = write_book(book, &Book { plan, updates: Vec::new() });
    let rows = write_table(table, &rows);
    Ok(Accepted { value: 0, used, rows })
}

/// 7.2: the plan passages by key. 7 goes by the joined pairs, equal keys counted; then 9, where one key arises twice; then 8.
fn plan(pass_times: &[Read], validities: &[Read], book_room: usize, table_room: usize) -> Result<Vec<Body>, Refusal> {
    let dates = dates_by_level(validities);
    let dates_of = |pass_time: &Read| dates.get(&level(pass_time)).map_or(&[][..], Vec::as_slice);
    let pairs: usize = pass_times.iter().map(|pass_time| dates_of(pass_time).len()).sum();
    if pairs * PLAN_BYTES > book_room {
        return Err(Refusal::BookShort);
    }
    let joined =
        pass_times.iter().flat_map(|pass_time| dates_of(pass_time).iter().map(|date| planned(pass_time, *date)));
    let mut plan: Vec<Body> = joined.collect();
    plan.sort_by_key(|body| body.key);
    let keys: BTreeSet<Key> = plan.iter().map(|body| body.key).collect();
    if keys.len() < plan.len() {
        return Err(Refusal::KeyTwice);
    }
    if plan.len() > table_room {
        return Err(Refusal::TableShort);
    }
    Ok(plan)
}

/// 7.2: what joins a pass time and a validity: owner and service level.
fn level(read: &Read) -> (Text, Text) {
    (read.text("DataOwnerCode"), read.text("LocalServiceLevelCode"))
}

/// 7.2: the validities' dates, by owner and service level; equal validities are two.
fn dates_by_level(validities: &[Read]) -> BTreeMap<(Text, Text), Vec<u32>> {
    let mut dates: BTreeMap<(Text, Text), Vec<u32>> = BTreeMap::new();
    for validity in validities {
        dates.entry(level(validity)).or_default().push(validity.number("OperationDate"));
    }
    dates
}

/// 7.2: a plan passage: the pass time's fields on the validity's date, timestamp 0, PLANNED, show cancelled 1, flexible as given or 0,
/// monitored 0.
fn planned(pass_time: &Read, date: u32) -> Body {
    Body {
        key: Key {
            owner: pass_time.text("DataOwnerCode"),
            date,
            line: pass_time.text("LinePlanningNumber"),
            journey: pass_time.number("VehicleJourneyNumber"),
            fortify: pass_time.number("FortifyOrderNumber"),
            stop: pass_time.text("UserStopCode"),
            order: pass_time.number("UserStopOrderNumber"),
        },
        destination: pass_time.text("DestinationCode"),
        timestamp: 0,
        status: PLANNED,
        arrival: pass_time.number_if_any("TargetArrivalTime").unwrap_or(NO_TIME),
        departure: pass_time.number_if_any("TargetDepartureTime").unwrap_or(NO_TIME),
        stop_type: pass_time.number("JourneyStopType"),
        show_cancelled: 1,
        flexible: pass_time.number_if_any("ShowFlexibleTrip").unwrap_or(FLEXIBLE_NOT_SAID),
        monitored: 0,
    }
}
