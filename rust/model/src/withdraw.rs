//! 7.4: withdraw.

use std::collections::BTreeMap;

use crate::answer::{numbers_of_day, Accepted, Refusal};
use crate::day::{sound_book, sound_table, table_room, write_book, write_table, Book, Table};
use crate::layout::*;
use crate::passage::{Key, Row};
use crate::row_rule::updated;

/// Withdraw, with its six numbers.
pub fn withdraw(number: u32, sender: u8, book: &mut [u8], table: &mut [u8], used: u64, rows: u64) -> [u64; 6] {
    let outcome = withdrawn(number, sender, book, table, used, rows);
    numbers_of_day(outcome.map_err(|refusal| (refusal, 0)), used, rows)
}

/// 7.1: 1, then 10, 12, 11, then 8. 4.7: table bytes freed when rows leave become zero.
fn withdrawn(
    number: u32,
    sender: u8,
    book: &mut [u8],
    table: &mut [u8],
    used: u64,
    rows: u64,
) -> Result<Accepted, Refusal> {
    let mut entries = sound_book(book, used).ok_or(Refusal::Unsound)?;
    let mut passages = sound_table(table, rows).ok_or(Refusal::Unsound)?;
    let before = passages.len();
    may_withdraw(&entries, number, sender)?;
    for update in entries.updates.iter_mut().filter(|update| update.number == number) {
        update.kind = WITHDRAWN;
    }
    set_named(&mut passages, &entries, number);
    if passages.len() > table_room(table) {
        return Err(Refusal::TableShort);
    }
    let used = write_book(book, &entries);
    let rows = write_table(table, &passages);
    if rows < before {
        table[rows * ROW_BYTES..before * ROW_BYTES].fill(0);
    }
    Ok(Accepted { value: 0, used, rows })
}

/// 7.1: 10, no such message; 12, the sender is neither the message's nor the desk; 11, already withdrawn.
fn may_withdraw(entries: &Book, number: u32, sender: u8) -> Result<(), Refusal> {
    let message = entries.updates.iter().find(|update| update.number == number).ok_or(Refusal::NoMessage)?;
    if sender != 0 && sender != message.sender {
        return Err(Refusal::OtherSender);
    }
    if message.kind == WITHDRAWN {
        return Err(Refusal::AlreadyWithdrawn);
    }
    Ok(())
}

/// 7.4: each passage that the message names becomes what the book says without it; without plan and standing row it leaves the table.
fn set_named(passages: &mut Table, entries: &Book, number: u32) {
    for (key, said) in said_by_book(entries, number) {
        match said {
            Some(row) => passages.insert(key, row),
            None => passages.remove(&key),
        };
    }
}

/// 7.4: what the book says of each passage that the message names: the plan's row with the standing rows of that key applied in order.
fn said_by_book(entries: &Book, number: u32) -> BTreeMap<Key, Option<Row>> {
    let named = entries.updates.iter().filter(|update| update.number == number);
    let mut said: BTreeMap<Key, Option<Row>> = named.map(|update| (update.body.key, None)).collect();
    for body in &entries.plan {
        if let Some(row) = said.get_mut(&body.key) {
            *row = Some(Row { body: *body, heard: 0 });
        }
    }
    for update in entries.updates.iter().filter(|update| update.kind == STANDING) {
        if let Some(row) = said.get_mut(&update.body.key) {
            *row = Some(updated(row.as_ref(), &update.body));
        }
    }
    said
}
