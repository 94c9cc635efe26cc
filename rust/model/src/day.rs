//! 4.2 to 4.7: table, book and register in lent bytes: whether they are sound, what they say, and how they are written.

use std::collections::BTreeMap;

use crate::layout::*;
use crate::passage::{number_at, number_bytes, Body, Key, Row, Text};

/// 4.3: an update: kind 2 or 3, with the number and the sender of its message.
#[derive(Clone, Copy, Debug, PartialEq, Eq)]
pub struct Update {
    pub kind: u8,
    pub number: u32,
    pub sender: u8,
    pub body: Body,
}

/// 4.3: the book: plan entries first, then updates in the order accepted.
#[derive(Clone, Debug, PartialEq, Eq)]
pub struct Book {
    pub plan: Vec<Body>,
    pub updates: Vec<Update>,
}

/// 4.2: the table, by key.
pub type Table = BTreeMap<Key, Row>;

/// "Too short" counts what is lent or the size, whichever is less (7.1): the bytes that may be used of a book,
pub fn book_room(book: &[u8]) -> usize {
    book.len().min(BOOK_BYTES)
}

/// and the rows of a table.
pub fn table_room(table: &[u8]) -> usize {
    (table.len() / ROW_BYTES).min(TABLE_ROWS)
}

/// 4.6: a count, where it is no more than the room.
fn count_within(count: u64, room: usize) -> Option<usize> {
    usize::try_from(count).ok().filter(|count| *count <= room)
}

/// 4.2, 4.6: the table, where it is sound: its count within the room, its rows by key strictly rising, each in its range.
pub fn sound_table(lent: &[u8], rows: u64) -> Option<Table> {
    let rows = count_within(rows, table_room(lent))?;
    let rows: Vec<Row> = lent[..rows * ROW_BYTES].chunks(ROW_BYTES).map(Row::read).collect();
    let keys: Vec<Key> = rows.iter().map(|row| row.body.key).collect();
    let sound = rows.iter().all(Row::in_range) && strictly_rising(&keys);
    sound.then(|| rows.iter().map(|row| (row.body.key, *row)).collect())
}

/// 4.2, 4.3: keys strictly rising. Those of equal owner, date and so on are told apart by the next field, in the order of their bytes.
fn strictly_rising(keys: &[Key]) -> bool {
    keys.windows(2).all(|pair| pair[0] < pair[1])
}

/// 4.3, 4.6: the book, where it is sound: its count within the room, its used bytes split into entries, each in its range, plan entries
/// first and by key strictly rising, then the updates by their numbers.
pub fn sound_book(lent: &[u8], used: u64) -> Option<Book> {
    let used = count_within(used, book_room(lent))?;
    let book = split_book(&lent[..used])?;
    let keys: Vec<Key> = book.plan.iter().map(|body| body.key).collect();
    let sound = book.plan.iter().all(Body::is_plan)
        && strictly_rising(&keys)
        && book.updates.iter().all(|update| update.sender >= 1 && update.body.is_update())
        && numbers_rise(&book.updates);
    sound.then_some(book)
}

/// 4.3: the used bytes as entries, each as long as its kind says; plan entries before all others.
fn split_book(used: &[u8]) -> Option<Book> {
    let mut book = Book { plan: Vec::new(), updates: Vec::new() };
    let mut rest = used;
    while let Some(kind) = rest.first() {
        let bytes = match *kind {
            PLAN if book.updates.is_empty() => PLAN_BYTES,
            STANDING | WITHDRAWN => UPDATE_BYTES,
            _ => return None,
        };
        let entry = rest.get(..bytes)?;
        match *kind {
            PLAN => book.plan.push(Body::read(&entry[1..])),
            kind => book.updates.push(Update {
                kind,
                number: number_at(entry, 1, 4),
                sender: entry[5],
                body: Body::read(&entry[6..]),
            }),
        }
        rest = &rest[bytes..];
    }
    Some(book)
}

/// 4.3: numbers begin at 1 and rise by one from message to message; the entries of a message share number, sender and kind.
fn numbers_rise(updates: &[Update]) -> bool {
    let begins = updates.first().is_none_or(|first| first.number == 1);
    let goes_on = |pair: &[Update]| {
        let (before, next) = (&pair[0], &pair[1]);
        let same_message = next.number == before.number && next.sender == before.sender && next.kind == before.kind;
        same_message || u64::from(next.number) == u64::from(before.number) + 1
    };
    begins && updates.windows(2).all(goes_on)
}

/// 4.6: a register is sound by its length alone: whole pairs, at most 64.
pub fn sound_register(register: &[u8]) -> bool {
    register.len().is_multiple_of(PAIR_BYTES) && register.len() <= REGISTER_PAIRS * PAIR_BYTES
}

/// 4.4: whether a sender may send for an owner: where some pair has both, byte for byte. A pair with sender 0 grants nothing.
pub fn registered(register: &[u8], sender: u8, owner: &Text) -> bool {
    sender != 0 && register.chunks(PAIR_BYTES).any(|pair| pair[0] == sender && pair[1..] == *owner)
}

/// 4.3: the entries as bytes, from the book's first. Unused bytes keep their contents (4.7).
pub fn write_book(lent: &mut [u8], book: &Book) -> usize {
    let mut bytes = Vec::new();
    for body in &book.plan {
        bytes.push(PLAN);
        bytes.extend(body.bytes());
    }
    for update in &book.updates {
        bytes.push(update.kind);
        bytes.extend(number_bytes(update.number, 4));
        bytes.push(update.sender);
        bytes.extend(update.body.bytes());
    }
    lent[..bytes.len()].copy_from_slice(&bytes);
    bytes.len()
}

/// 4.2: the rows as bytes, from the table's first. Unused bytes keep their contents (4.7).
pub fn write_table(lent: &mut [u8], table: &Table) -> usize {
    let bytes: Vec<u8> = table.values().flat_map(Row::bytes).collect();
    lent[..bytes.len()].copy_from_slice(&bytes);
    table.len()
}
