//! Changes to a state: sound ones, after which table and book disagree, and ones that make it
//! unsound at an edge.

use super::passage::*;
use super::random::Random;
use super::state::{forged_row, State};
use super::world::World;

const TIME_EDGES: &[u32] = &[0, 86_399, 86_400, 115_199, 115_200, NO_TIME - 1, NO_TIME];

/// Values at the edges of each field of a row, in the order of `FIELDS`. No values: a text.
static EDGES: [&[u32]; 17] = [
    &[],
    &[
        0,
        19_991_231,
        20_000_101,
        20_000_229,
        20_000_230,
        20_210_431,
        20_230_229,
        20_240_229,
        20_000_100,
        20_000_001,
        20_001_301,
        20_991_231,
        20_991_232,
        21_000_101,
        u32::MAX,
    ],
    &[],
    &[0, 999_999, 1_000_000, u32::MAX],
    &[0, 99, 100, 255],
    &[],
    &[0, 999, 1_000, 65_535],
    &[],
    &[0, 1, 946_634_399, 946_634_400, 1_456_841_730, 4_102_495_199, 4_102_495_200, u32::MAX],
    &[0, 1, 2, 3, 4, 5, 6, 255],
    TIME_EDGES,
    TIME_EDGES,
    &[0, 1, 2, 3, 255],
    &[0, 1, 2, 2, 3, 254, 255],
    &[0, 1, 2, 3, 4, 254, 255],
    &[0, 1, 2, 254, 255],
    // Behind a table row's body only: heard.
    &[0, 1, 2, 255],
];

/// Some change to book, table or counts; many of them leave the state unsound.
pub fn unsettle(state: &mut State, random: &mut Random) {
    match random.below(12) {
        0 => random_byte(state, random),
        1..=4 => edge_fields(state, random),
        5 => swap_neighbours(state, random),
        6 => copy_neighbour(state, random),
        7 => change_count(state, random),
        8 => change_lent(state, random),
        9 | 10 => change_heads(state, random),
        _ => end_book_early(state, random),
    }
}

fn random_byte(state: &mut State, random: &mut Random) {
    let bytes = if random.one_in(2) { &mut state.book } else { &mut state.table };
    if !bytes.is_empty() {
        let place = random.below(bytes.len());
        bytes[place] = if random.one_in(2) { random.byte() } else { *random.pick(&[0, 1, 2, 3, 255]) };
    }
}

/// Sets one to three fields of one body to values at their edges.
fn edge_fields(state: &mut State, random: &mut Random) {
    let in_table = random.one_in(2);
    let Some(body) = any_body(state, in_table, random) else { return };
    for _ in 0..*random.pick(&[1, 1, 1, 2, 3]) {
        let count = if in_table { FIELDS.len() } else { FIELDS.len() - 1 };
        set_edge(body, random.below(count), random);
    }
}

/// A row of the table, or the body of one of the book's entries.
fn any_body<'a>(state: &'a mut State, in_table: bool, random: &mut Random) -> Option<&'a mut [u8]> {
    if in_table {
        let count = state.row_count();
        let index = near_ends(count, random)?;
        return Some(&mut state.table[index * ROW..][..ROW]);
    }
    let entries = state.entries();
    let start = entries[near_ends(entries.len(), random)?];
    let head = if state.book[start] == KIND_PLAN { 1 } else { UPDATE_BODY_AT };
    Some(&mut state.book[start + head..][..BODY_WIDE])
}

/// A place below the count, often the last: a key may grow there without leaving the order.
fn near_ends(count: usize, random: &mut Random) -> Option<usize> {
    match (count, random.below(3)) {
        (0, _) => None,
        (_, 0) => Some(count - 1),
        _ => Some(random.below(count)),
    }
}

/// Sets a field of a body to a value at its edges.
pub fn set_edge(body: &mut [u8], which: usize, random: &mut Random) {
    let (place, edges) = (FIELDS[which], EDGES[which]);
    let field = &mut body[place.at..place.at + place.wide];
    if edges.is_empty() {
        set_text_edge(field, random);
    } else {
        let bytes = random.pick(edges).to_be_bytes();
        field.copy_from_slice(&bytes[4 - place.wide..]);
    }
}

fn set_text_edge(field: &mut [u8], random: &mut Random) {
    let place = random.below(field.len());
    match random.below(6) {
        0 => field.fill(0),
        1 => field.fill(b'~'),
        2 => field[place] = *random.pick(&[31, 32, 126, 127, 128, 255]),
        3 => field[place] = 0,
        4 => field[place..].fill(0),
        _ => field[9] = b' ',
    }
}

/// Swaps two rows or two entries that stand next to each other.
fn swap_neighbours(state: &mut State, random: &mut Random) {
    if random.one_in(2) {
        let count = state.row_count();
        if count >= 2 {
            let at = random.below(count - 1) * ROW;
            state.table[at..at + 2 * ROW].rotate_left(ROW);
        }
        return;
    }
    let entries = state.entries();
    if entries.len() >= 2 {
        let which = random.below(entries.len() - 1);
        let end = entries.get(which + 2).map_or(state.used_book().len(), |&end| end);
        state.book[entries[which]..end].rotate_left(entries[which + 1] - entries[which]);
    }
}

/// The same row, or the same plan entry, twice in a row: no strictly rising keys.
fn copy_neighbour(state: &mut State, random: &mut Random) {
    let table = random.one_in(2);
    let (count, bytes) = if table {
        (state.row_count(), &mut state.table)
    } else {
        let plans = state.entries().iter().filter(|&&start| state.book[start] == KIND_PLAN).count();
        (plans, &mut state.book)
    };
    if count >= 2 {
        let at = random.below(count - 1) * ROW;
        bytes.copy_within(at..at + ROW, at + ROW);
    }
}

/// Counts out by little, huge, or such that a product with the row length would wrap around.
fn change_count(state: &mut State, random: &mut Random) {
    let wrapping = u64::MAX / ROW as u64;
    let in_book = random.one_in(2);
    let (count, lent) = if in_book {
        (&mut state.used, state.book.len() as u64)
    } else {
        (&mut state.rows, (state.table.len() / ROW) as u64)
    };
    let now = *count;
    *count = *random.pick(&[
        now.wrapping_sub(1),
        now.wrapping_add(1),
        now.wrapping_add(PLAN_WIDE as u64),
        now.wrapping_add(UPDATE_WIDE as u64),
        now.wrapping_sub(PLAN_WIDE as u64),
        now.wrapping_sub(UPDATE_WIDE as u64),
        0,
        lent,
        lent + 1,
        now.wrapping_add(1 << 32),
        now | 1 << 63,
        wrapping,
        wrapping + 1,
        wrapping + 2,
        u64::MAX,
        u64::MAX - 1,
        ROWS as u64 + 1,
        BOOK as u64 + 1,
    ]);
}

/// Lends fewer bytes than are used, or exactly those, or a part of an entry more.
fn change_lent(state: &mut State, random: &mut Random) {
    let less = *random.pick(&[0, 0, 1, BODY_WIDE, PLAN_WIDE, UPDATE_WIDE]);
    if random.one_in(2) {
        let used = state.used_book().len();
        state.relend_book(used.saturating_sub(less), random);
    } else {
        let used = state.row_count() * ROW;
        state.relend_table(used.saturating_sub(less), random);
    }
}

/// Kind, message number or sender of one entry, or of all entries from there on.
fn change_heads(state: &mut State, random: &mut Random) {
    let entries = state.entries();
    let Some(which) = near_ends(entries.len(), random) else { return };
    let reach = if random.one_in(3) { entries.len() } else { which + 1 };
    let change = random.below(6);
    let byte = *random.pick(&[0, 1, 2, 3, 4, 255]);
    for &start in &entries[which..reach] {
        let entry = &mut state.book[start..];
        let number = if entry[KIND_AT] == KIND_PLAN { 0 } else { number(&entry[NUMBER_AT..][..4]) };
        match change {
            0 => entry[KIND_AT] = byte,
            1 if entry[KIND_AT] != KIND_PLAN => entry[KIND_AT] ^= 1,
            2 if number > 0 => entry[NUMBER_AT..][..4].copy_from_slice(&number.wrapping_add(1).to_be_bytes()),
            3 if number > 0 => entry[NUMBER_AT..][..4].copy_from_slice(&(number - 1).to_be_bytes()),
            4 if number > 0 => entry[SENDER_AT] = byte,
            5 if number > 0 => entry[NUMBER_AT] = byte,
            _ => {}
        }
    }
}

/// The book ends after one of its entries: sound, and less than the table knows.
fn end_book_early(state: &mut State, random: &mut Random) {
    let entries = state.entries();
    if !entries.is_empty() {
        state.used = entries[random.below(entries.len())] as u64;
    }
}

/// Changes to the table alone that keep it sound, so that it disagrees with the book.
pub fn disagree(state: &mut State, world: &World, random: &mut Random) {
    match random.below(3) {
        0 => remove_rows(state, random),
        1 => replace_row(state, world, random),
        _ => {
            remove_rows(state, random);
            lend_exactly(state, random);
        }
    }
}

fn remove_rows(state: &mut State, random: &mut Random) {
    for _ in 0..random.range(1, 3) {
        let count = state.row_count();
        if count == 0 || state.rows != count as u64 {
            return;
        }
        let at = random.below(count) * ROW;
        state.table.copy_within(at + ROW..count * ROW, at);
        state.rows -= 1;
    }
}

fn replace_row(state: &mut State, world: &World, random: &mut Random) {
    let count = state.row_count();
    if count > 0 {
        let index = random.below(count);
        let row = forged_row(world, Key::read(state.row(index)), random);
        state.table[index * ROW..][..ROW].copy_from_slice(&row);
    }
}

/// A table without room for one row more.
fn lend_exactly(state: &mut State, random: &mut Random) {
    let length = state.row_count() * ROW + random.below(ROW);
    state.relend_table(length, random);
}
