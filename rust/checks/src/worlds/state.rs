//! Book and table as lent bytes with their counts, and forged ones that no run of calls made.

use std::collections::BTreeMap;

use super::passage::*;
use super::random::Random;
use super::world::{Role, World};

#[derive(Clone, Debug, PartialEq, Eq)]
pub struct State {
    pub book: Vec<u8>,
    pub table: Vec<u8>,
    pub used: u64,
    pub rows: u64,
}

impl State {
    /// Lent bytes with nothing written yet. They are random, so that a stray write shows.
    pub fn blank(book_length: usize, table_length: usize, random: &mut Random) -> State {
        State { book: random.bytes(book_length), table: random.bytes(table_length), used: 0, rows: 0 }
    }

    /// The used part of the book, as far as it is lent.
    pub fn used_book(&self) -> &[u8] {
        &self.book[..(self.used as usize).min(self.book.len())]
    }

    /// How many whole rows are used, as far as they are lent.
    pub fn row_count(&self) -> usize {
        (self.rows as usize).min(self.table.len() / ROW)
    }

    pub fn row(&self, index: usize) -> &[u8] {
        &self.table[index * ROW..][..ROW]
    }

    /// Where the used entries begin, as far as they can be told apart.
    pub fn entries(&self) -> Vec<usize> {
        let book = self.used_book();
        let mut starts = Vec::new();
        let mut at = 0;
        while at < book.len() {
            let length = if book[at] == KIND_PLAN { PLAN_WIDE } else { UPDATE_WIDE };
            if at + length > book.len() {
                break;
            }
            starts.push(at);
            at += length;
        }
        starts
    }

    /// The messages in the book: number, sender and kind of each.
    pub fn messages(&self) -> Vec<(u32, u8, u8)> {
        let mut messages: Vec<(u32, u8, u8)> = Vec::new();
        for start in self.entries() {
            let entry = &self.book[start..];
            if entry[KIND_AT] != KIND_PLAN {
                let number = number(&entry[NUMBER_AT..][..4]);
                if messages.last().is_none_or(|last| last.0 != number) {
                    messages.push((number, entry[SENDER_AT], entry[KIND_AT]));
                }
            }
        }
        messages
    }

    /// Lends the book at another length; bytes that are new are random.
    pub fn relend_book(&mut self, length: usize, random: &mut Random) {
        relend(&mut self.book, length, random);
    }

    /// Lends the table at another length; bytes that are new are random.
    pub fn relend_table(&mut self, length: usize, random: &mut Random) {
        relend(&mut self.table, length, random);
    }
}

fn relend(bytes: &mut Vec<u8>, length: usize, random: &mut Random) {
    let more = length.saturating_sub(bytes.len());
    bytes.extend(random.bytes(more));
    bytes.truncate(length);
}

/// How much a forged state holds, about: plan entries, bytes of the book, rows of the table.
pub struct Measure {
    pub plans: usize,
    pub book_bytes: usize,
    pub rows: usize,
}

/// A sound book and a sound table that need not agree with each other.
pub fn forged(world: &World, measure: &Measure, random: &mut Random) -> State {
    let mut book = plan_entries(world, measure.plans, random);
    let mut number = 1;
    while book.len() + UPDATE_WIDE <= measure.book_bytes {
        let most = (measure.book_bytes - book.len()) / UPDATE_WIDE;
        push_message(&mut book, number, most, world, random);
        number += 1;
    }
    let table = forged_rows(world, measure.rows, random);
    let (used, rows) = (book.len() as u64, (table.len() / ROW) as u64);
    let mut state = State { book, table, used, rows };
    let (book_spare, table_spare) = (spare(UPDATE_WIDE, random), spare(ROW, random));
    state.relend_book(state.book.len() + book_spare, random);
    state.relend_table(state.table.len() + table_spare, random);
    state
}

/// Unused bytes: none, a part of an entry, or room for a few.
pub fn spare(entry: usize, random: &mut Random) -> usize {
    match random.below(6) {
        0 => 0,
        1 => random.below(entry),
        2 => entry * random.range(1, 3) - 1,
        3 => entry * random.range(1, 3),
        _ => random.below(entry * 20),
    }
}

fn plan_entries(world: &World, count: usize, random: &mut Random) -> Vec<u8> {
    let mut entries = BTreeMap::new();
    for _ in 0..2 * count {
        if entries.len() < count {
            let passage = world.passage(world.key(random), Role::Plan, random);
            entries.insert(passage.key.bytes(), passage.body());
        }
    }
    let mut book = Vec::with_capacity(entries.len() * PLAN_WIDE);
    for body in entries.values() {
        book.push(KIND_PLAN);
        book.extend_from_slice(body);
    }
    book
}

/// One to three entries of one message, standing or withdrawn, but no more than the most; about passages of the plan and others.
fn push_message(book: &mut Vec<u8>, number: u32, most: usize, world: &World, random: &mut Random) {
    let plans = book.chunks(PLAN_WIDE).take_while(|entry| entry[0] == KIND_PLAN).take(40).count();
    let kind = if random.one_in(3) { KIND_WITHDRAWN } else { KIND_STANDING };
    let sender = *random.pick(&world.senders);
    for _ in 0..random.range(1, 3).min(most) {
        let key = if plans > 0 && random.one_in(2) {
            Key::read(&book[random.below(plans) * PLAN_WIDE + 1..])
        } else {
            world.key(random)
        };
        let passage = world.passage(key, Role::Update, random);
        book.push(kind);
        book.extend_from_slice(&number.to_be_bytes());
        book.push(sender);
        book.extend_from_slice(&passage.body());
    }
}

fn forged_rows(world: &World, count: usize, random: &mut Random) -> Vec<u8> {
    let mut rows = BTreeMap::new();
    for _ in 0..2 * count {
        if rows.len() < count {
            let key = world.key(random);
            rows.insert(key.bytes(), forged_row(world, key, random));
        }
    }
    rows.into_values().flatten().collect()
}

pub fn forged_row(world: &World, key: Key, random: &mut Random) -> Vec<u8> {
    let heard = random.one_in(2);
    let mut row = world.passage(key, Role::Row { heard }, random).body().to_vec();
    row.push(u8::from(heard));
    row
}
