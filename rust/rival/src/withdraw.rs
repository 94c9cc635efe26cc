//! Withdraw: a message's entries no longer count, and each passage that they
//! name is worked out anew from the book.

use super::answer::Refusal;
use super::book::{self, Parts};
use super::index::Dense;
use super::passage::*;
use super::table;

pub fn withdraw(number: u32, sender: u8, book: &mut [u8], table: &mut [u8], used: u64, rows: u64) -> [u64; 6] {
    match take_back(number, sender, book, table, used, rows) {
        Ok(rows) => [0, 0, 0, 0, used, rows as u64],
        Err(number) => Refusal::bare(number).answer(0, used, rows),
    }
}

fn take_back(
    number: u32,
    sender: u8,
    lent_book: &mut [u8],
    lent_table: &mut [u8],
    used: u64,
    rows: u64,
) -> Result<usize, u64> {
    let parts = book::sound(lent_book, used).ok_or(1u64)?;
    let rows = table::sound(lent_table, rows).ok_or(1u64)?;
    if number == 0 || number > parts.last {
        return Err(10);
    }
    let entries = book::entries(lent_book, &parts, number);
    let first = &lent_book[entries.start..entries.start + 6];
    if sender != 0 && sender != first[5] {
        return Err(12);
    }
    if first[0] == book::KIND_WITHDRAWN {
        return Err(11);
    }
    let results = reckon(lent_book, &parts, entries.clone());
    let edits = Edits::plan(lent_table, rows, results);
    let total = rows - edits.gone.len() + edits.new.len();
    if total > table::room(lent_table) {
        return Err(8);
    }
    edits.make(lent_table, rows, total);
    for entry in lent_book[entries].chunks_exact_mut(book::UPDATE) {
        entry[0] = book::KIND_WITHDRAWN;
    }
    Ok(total)
}

/// The passages that a message names, and what is held of each without it.
struct Results {
    keys: Vec<Key>,
    rows: Vec<Option<Row>>,
}

fn reckon(lent: &[u8], parts: &Parts, entries: std::ops::Range<usize>) -> Results {
    let named_bytes = &lent[entries.clone()];
    let mut named = Dense::new(named_bytes.len() / book::UPDATE);
    for entry in named_bytes.chunks_exact(book::UPDATE) {
        let key = Key::of(&entry[6..]);
        named.add(key.hash(), key);
    }
    let mut plan = book::plan_sorted(lent, parts);
    let start = |key: &Key| {
        plan.find(key).ok().map(|place| {
            let mut row = [0; ROW];
            row[..BODY].copy_from_slice(book::plan_body(lent, place));
            row
        })
    };
    let mut held: Vec<Option<Row>> = named.keys.iter().map(start).collect();
    for part in [&lent[parts.plan..entries.start], &lent[entries.end..parts.used]] {
        for entry in part.chunks_exact(book::UPDATE) {
            if entry[0] != book::KIND_STANDING {
                continue;
            }
            let body: &Body = entry[6..].try_into().unwrap();
            let key = Key::of(body);
            if let Some(i) = named.get(key.hash(), &key) {
                apply(held[i].get_or_insert_with(|| unplanned(body)), body);
            }
        }
    }
    Results { keys: named.keys, rows: held }
}

/// What becomes of the table, places as they are before.
struct Edits {
    same: Vec<(usize, Row)>,
    gone: Vec<usize>,
    new: Vec<(usize, Row)>,
}

impl Edits {
    fn plan(lent: &[u8], rows: usize, results: Results) -> Edits {
        let mut edits = Edits { same: Vec::new(), gone: Vec::new(), new: Vec::new() };
        let mut order: Vec<u32> = (0..results.keys.len() as u32).collect();
        order.sort_unstable_by_key(|&i| results.keys[i as usize]);
        let mut places = table::sorted(lent, rows);
        for i in order {
            match (places.find(&results.keys[i as usize]), results.rows[i as usize]) {
                (Ok(place), Some(row)) => edits.same.push((place, row)),
                (Ok(place), None) => edits.gone.push(place),
                // Insertion follows removal: the rows gone before are not counted.
                (Err(place), Some(row)) => edits.new.push((place - edits.gone.len(), row)),
                (Err(_), None) => {}
            }
        }
        edits
    }

    fn make(self, lent: &mut [u8], rows: usize, total: usize) {
        for (place, row) in &self.same {
            *table::row_mut(lent, *place) = *row;
        }
        table::remove(lent, rows, &self.gone);
        table::insert(lent, rows - self.gone.len(), &self.new);
        if total < rows {
            lent[total * ROW..rows * ROW].fill(0);
        }
    }
}
