//! The table: rows by key, strictly rising.

use super::passage::{below, Kind, Ranges, Row, BODY, HEARD, KEY, ROW};
use super::sorted::Sorted;

/// Of a lent table at most this many rows are used.
pub const SIZE: usize = 2_048;

/// Rows that a lent table has room for.
pub fn room(table: &[u8]) -> usize {
    (table.len() / ROW).min(SIZE)
}

/// Checks the used rows and gives their number.
pub fn sound(table: &[u8], rows: u64) -> Option<usize> {
    if rows > room(table) as u64 {
        return None;
    }
    let rows = rows as usize;
    let mut ranges = Ranges::new();
    let mut before = &[0; KEY];
    for row in table[..rows * ROW].chunks_exact(ROW) {
        let row: &Row = row.try_into().unwrap();
        let key: &[u8; KEY] = row[..KEY].try_into().unwrap();
        let body = row[..BODY].try_into().unwrap();
        if !(ranges.sound(body, Kind::Row(row[HEARD])) & below(before, key)) {
            return None;
        }
        before = key;
    }
    Some(rows)
}

#[inline(always)]
pub fn row(table: &[u8], place: usize) -> &Row {
    table[place * ROW..(place + 1) * ROW].try_into().unwrap()
}

#[inline(always)]
pub fn row_mut(table: &mut [u8], place: usize) -> &mut Row {
    (&mut table[place * ROW..(place + 1) * ROW]).try_into().unwrap()
}

/// The used rows, to look keys up in.
pub fn sorted(table: &[u8], rows: usize) -> Sorted<'_> {
    Sorted::new(&table[..rows * ROW], ROW, 0)
}

/// Inserts rows, given by rising key with their places in the table as it is.
/// Every row is moved at most once.
pub fn insert(table: &mut [u8], rows: usize, new: &[(usize, Row)]) {
    let mut end = rows;
    for (before, (place, content)) in new.iter().enumerate().rev() {
        table.copy_within(place * ROW..end * ROW, (place + before + 1) * ROW);
        *row_mut(table, place + before) = *content;
        end = *place;
    }
}

/// Closes the gaps of rows that leave, given by rising place. The bytes that
/// become free are left as they are.
pub fn remove(table: &mut [u8], rows: usize, gone: &[usize]) {
    for (i, &place) in gone.iter().enumerate() {
        let end = gone.get(i + 1).map_or(rows, |&next| next);
        table.copy_within((place + 1) * ROW..end * ROW, (place - i) * ROW);
    }
}
