//! Boards: the passages of one stop that leave from now to a horizon.

use super::dates::{self, DAY};
use super::passage::*;
use super::table;

fn refused(number: u64) -> [u64; 3] {
    [number, 0, 0]
}

/// Seconds within an operating day.
#[derive(Clone, Copy)]
struct DayTime(u32);

/// Seconds since 2000 on the clock.
#[derive(Clone, Copy, PartialEq, Eq, PartialOrd, Ord)]
struct Moment(u64);

impl Moment {
    fn of(days: u32, time: DayTime) -> Moment {
        Moment(days as u64 * DAY as u64 + time.0 as u64)
    }
}

fn padded(text: &[u8]) -> Option<[u8; TEXT]> {
    if text.is_empty() || text.len() > TEXT || !text.iter().all(|b| (32..=126).contains(b)) {
        return None;
    }
    let mut padded = [0; TEXT];
    padded[..text.len()].copy_from_slice(text);
    Some(padded)
}

/// First place whose owner and date are not below the given ones.
fn first_from(table: &[u8], rows: usize, owner: &[u8; TEXT], date: u32) -> usize {
    let whole = |bytes: &[u8], date: u32| {
        let mut number = [0; 16];
        number[..TEXT].copy_from_slice(bytes);
        number[TEXT..TEXT + 4].copy_from_slice(&date.to_be_bytes());
        u128::from_be_bytes(number)
    };
    let wanted = whole(owner, date);
    let (mut low, mut high) = (0, rows);
    while low < high {
        let middle = (low + high) / 2;
        let row = table::row(table, middle);
        if whole(&row[..TEXT], number4(row, DATE)) < wanted {
            low = middle + 1;
        } else {
            high = middle;
        }
    }
    low
}

/// All of the showing rule but stop and departure.
fn may_show(row: &Row) -> bool {
    let flexible = match row[FLEXIBLE] {
        0 | 1 => true,
        3 => row[MONITORED] == 1,
        _ => false,
    };
    let cancel = row[STATUS] != CANCEL || row[SHOW_CANCELLED] == 1;
    let running = row[FORTIFY] == 0 || row[HEARD] == 1;
    row[STOP_TYPE] != LAST && row[STATUS] != PASSED && cancel && flexible && running
}

#[allow(clippy::too_many_arguments)]
pub fn board(
    owner: &[u8],
    stop: &[u8],
    date: u32,
    second: u32,
    horizon: u32,
    lent: &[u8],
    rows: u64,
    places: &mut [u32],
) -> [u64; 3] {
    let Some(rows) = table::sound(lent, rows) else {
        return refused(1);
    };
    let (Some(owner), Some(stop)) = (padded(owner), padded(stop)) else {
        return refused(13);
    };
    if !dates::is_date(date) || second >= DAY || horizon > DAY {
        return refused(13);
    }
    let mut shown = collect(lent, rows, &owner, &stop, date, second, horizon);
    let written = shown.len().min(places.len());
    // Only the part that is written has to be in order.
    if written < shown.len() {
        shown.select_nth_unstable(written);
    }
    shown[..written].sort_unstable();
    for (place, (_, row)) in places.iter_mut().zip(&shown[..written]) {
        *place = *row;
    }
    [0, written as u64, shown.len() as u64]
}

fn collect(
    lent: &[u8],
    rows: usize,
    owner: &[u8; TEXT],
    stop: &[u8; TEXT],
    date: u32,
    second: u32,
    horizon: u32,
) -> Vec<(Moment, u32)> {
    let now = Moment::of(dates::days(date), DayTime(second));
    let end = Moment(now.0 + horizon as u64);
    // Departures go up to 31:59:59, horizons to a day: three dates can matter.
    let from = first_from(lent, rows, owner, dates::before(date));
    let to = from + first_from(&lent[from * ROW..], rows - from, owner, dates::after(date) + 1);
    let mut shown = Vec::new();
    let (mut last_date, mut last_days) = (date, dates::days(date));
    for place in from..to {
        let row = table::row(lent, place);
        if row[STOP..STOP + TEXT] != *stop || !may_show(row) {
            continue;
        }
        let row_date = number4(row, DATE);
        if row_date != last_date {
            (last_date, last_days) = (row_date, dates::days(row_date));
        }
        let moment = Moment::of(last_days, DayTime(number3(row, DEPARTURE)));
        if now <= moment && moment <= end {
            shown.push((moment, place as u32));
        }
    }
    shown
}
