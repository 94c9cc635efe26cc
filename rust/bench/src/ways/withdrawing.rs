//! `withdrawals` and `withdrawals_replay`: the named passages sorted, the book gone over once with a search for each entry, and
//! the slots taken into the table one by one.

use std::cmp::Ordering;

use super::opening::sort_keys;
use super::soundness::count_plans;
use super::*;

/// A slot: one byte, 1 where there is a row; then the row, or else its key and zero bytes.
const SLOT: usize = 1 + ROW;
/// The most entries that a book can have.
const MOST: usize = 4096;

/// As `find_row`, but at the place `hint` first, then a little behind it.
fn find_near(t: &[u8], n: usize, k: &[u8], q: usize, hint: usize) -> Result<usize, usize> {
    let (mut low, mut high, mut wish, mut leap, mut next) = (0, n, hint, 8, 64);
    while low < high {
        let look = if low <= wish && wish < high { wish } else { low + (high - low) / 2 };
        match compare_key(t, look * ROW, k, q) {
            Ordering::Less => {
                low = look + 1;
                wish = look + leap;
                leap = next;
                next = n;
            }
            Ordering::Equal => return Ok(look),
            Ordering::Greater => high = look,
        }
    }
    Err(low)
}

/// A slot for each named passage, as its plan says.
fn begin_slots(plans: &[u8], named: &[u8], order: &[u32], slots: &mut [u8]) {
    for (i, &p) in order.iter().enumerate() {
        let (q, at) = (p as usize * ENTRY + BODY_AT, i * SLOT);
        slots[at] = 0;
        copy_to(slots, at + 1, &named[q..q + KEY]);
        slots[at + 1 + KEY..at + SLOT].fill(0);
        if let Ok(place) = find(plans.len() / PLAN, plans, |i| i * PLAN + 1, named, q) {
            copy_to(slots, at + 1, &plans[place * PLAN + 1..(place + 1) * PLAN]);
            slots[at + ROW] = 0;
            slots[at] = 1;
        }
    }
}

/// The updates once more, in the order accepted: each that stands and is of another message into its slot, if there is one.
fn replay(updates: &[u8], own: u32, named: &[u8], order: &[u32], slots: &mut [u8]) {
    for entry in updates.chunks_exact(ENTRY) {
        if entry[0] != 2 || number(entry, 1, 4) == own {
            continue;
        }
        let key_at = |place: usize| order[place] as usize * ENTRY + BODY_AT;
        if let Ok(i) = find(order.len(), named, key_at, entry, BODY_AT) {
            let at = i * SLOT;
            if slots[at] != 1 {
                begin_row(slots, at + 1);
            }
            apply_row(slots, at + 1, entry, BODY_AT);
            slots[at] = 1;
        }
    }
}

/// Rows leave one by one, then rows come or are replaced one by one; the new count.
fn settle(t: &mut [u8], n: usize, slots: &[u8]) -> usize {
    let mut count = n;
    for slot in slots.chunks_exact(SLOT) {
        if slot[0] == 1 {
            continue;
        }
        if let Ok(i) = find_row(t, count, slot, 1) {
            t.copy_within((i + 1) * ROW..count * ROW, i * ROW);
            count -= 1;
            t[count * ROW..(count + 1) * ROW].fill(0);
        }
    }
    let mut near = 0;
    for slot in slots.chunks_exact(SLOT) {
        if slot[0] != 1 {
            continue;
        }
        let found = find_near(t, count, slot, 1, near);
        near = found.unwrap_or_else(|place| place) + 1;
        match found {
            Ok(place) => copy_to(t, place * ROW, &slot[1..]),
            Err(place) => {
                insert_row(t, count, place, &slot[1..]);
                count += 1;
            }
        }
    }
    count
}

/// How many rows there will be, and one more for each slot.
fn count_after(t: &[u8], n: usize, slots: &[u8]) -> usize {
    let (mut sum, mut near) = (n, 0);
    for slot in slots.chunks_exact(SLOT) {
        let found = find_near(t, n, slot, 1, near);
        near = found.map_or_else(|place| place, |place| place + 1);
        sum += (slot[0] == 1) as usize + found.is_err() as usize;
    }
    sum
}

/// A standing message of a sound book is withdrawn; the new count of rows, or none where they have no room.
pub fn withdraw(own: u32, book: &mut [u8], t: &mut [u8], used: usize, n: usize) -> Option<usize> {
    let (plans, updates) = book[..used].split_at(count_plans(book, used) * PLAN);
    let numbers = || updates.chunks_exact(ENTRY).map(|entry| number(entry, 1, 4));
    let before = numbers().take_while(|&number| number != own).count();
    let named =
        &updates[before * ENTRY..][..numbers().skip(before).take_while(|&number| number == own).count() * ENTRY];
    let (mut order, mut slots) = ([0; MOST], [0; MOST * SLOT]);
    let c = sort_keys(named, named.len() / ENTRY, BODY_AT, ENTRY, &mut order);
    let (order, slots) = (&order[..c], &mut slots[..c * SLOT]);
    begin_slots(plans, named, order, slots);
    replay(updates, own, named, order, slots);
    let most = (t.len() / ROW).min(2048);
    if most < n + c && most + c < count_after(t, n, slots) {
        return None;
    }
    let count = settle(t, n, slots);
    let (from, to) = (plans.len() + before * ENTRY, plans.len() + before * ENTRY + named.len());
    book[from..to].chunks_exact_mut(ENTRY).for_each(|entry| entry[0] = 3);
    Some(count)
}
