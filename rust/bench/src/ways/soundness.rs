//! `passage`, `keys`, `table` and `book`: what all bodies have in common, what a kind has of its own, and the order of
//! keys, each in a pass of its own.

use super::{is_date, number, word_at, BODY, BODY_AT, ENTRY, KEY, PLAN, ROW};

/// What byte i is to the text from `from` on: 0 not in it, 1 its first byte, 2 one between, 3 its last.
fn role_in(i: usize, from: usize) -> u8 {
    let inside = (from <= i) & (i < from + 10);
    inside as u8 + (inside & (i != from)) as u8 + (i + 1 == from + 10) as u8
}

fn breaks(role: u8, b: u8, next: u8) -> bool {
    !((32 <= b) & (b <= 126)) & ((role == 1) | (role != 0) & (b != 0) | (role == 2) & (next != 0))
}

/// The four texts of a body, without a branch.
fn texts_at(body: &[u8; BODY]) -> bool {
    let mut bad: u8 = 0;
    for i in 0..64 {
        let role = role_in(i, 0) + role_in(i, 14) + role_in(i, 29) + role_in(i, 41);
        bad += breaks(role, body[i], body[i + 1]) as u8;
    }
    bad == 0
}

fn times_in_range(stop: u8, arrival: u32, departure: u32) -> bool {
    (stop <= 2)
        & ((arrival < 115_200) | (stop == 0) & (arrival == 16_777_215))
        & ((departure < 115_200) | (stop == 2) & (departure == 16_777_215))
}

fn common_at(body: &[u8; BODY], date: u32, known: u32) -> bool {
    texts_at(body)
        & (date == known || is_date(date))
        & (number(body, 24, 4) < 1_000_000)
        & (body[28] < 100)
        & (number(body, 39, 2) < 1000)
        & times_in_range(body[62], number(body, 56, 3), number(body, 59, 3))
}

/// The first pass: what update, plan entry and row have in common, in rows of w bytes with a body from `off` on.
fn all_common(rows: &[u8], w: usize, off: usize) -> bool {
    let mut known = 20_000_101;
    for row in rows.chunks_exact(w) {
        let body: &[u8; BODY] = row[off..off + BODY].try_into().unwrap();
        let date = number(body, 10, 4);
        if !common_at(body, date, known) {
            return false;
        }
        known = date;
    }
    true
}

fn is_stamp(n: u32) -> bool {
    (946_634_400..=4_102_495_199).contains(&n)
}

fn update_in_range(s: &[u8]) -> bool {
    let (show, flexible, monitored) = (s[63], s[64], s[65]);
    is_stamp(number(s, 51, 4))
        & (s[55] <= 5)
        & ((show <= 2) | (show == 255))
        & ((1..=3).contains(&flexible) | (flexible == 255))
        & ((monitored <= 1) | (monitored == 255))
}

fn plan_in_range(s: &[u8]) -> bool {
    (number(s, 51, 4) == 0) & (s[55] == 0) & (s[63] == 1) & (s[64] <= 3) & (s[65] == 0)
}

fn row_in_range(s: &[u8]) -> bool {
    let (heard, stamp) = (s[66], number(s, 51, 4));
    ((heard == 0) & (stamp == 0) | (heard == 1) & is_stamp(stamp))
        & (s[55] <= 5)
        & (s[63] <= 2)
        & (s[64] <= 3)
        & (s[65] <= 1)
}

/// Without a branch: keys that stand side by side differ at any place.
fn is_below(a: &[u8], b: &[u8]) -> bool {
    let (a, b) = (&a[..KEY], &b[..KEY]);
    let (mut below, mut equal) = (false, true);
    for i in 0..KEY / 8 {
        let (x, y) = (word_at(a, i * 8), word_at(b, i * 8));
        below |= equal & (x < y);
        equal &= x == y;
    }
    below | (equal & (a[KEY - 1] < b[KEY - 1]))
}

/// The third pass.
fn keys_rise(rows: &[u8], w: usize, off: usize) -> bool {
    let mut p = off;
    while p + w < rows.len() {
        if !is_below(&rows[p..], &rows[p + w..]) {
            return false;
        }
        p += w;
    }
    true
}

pub fn table_is_sound(t: &[u8], n: usize) -> bool {
    if (t.len() / ROW).min(2048) < n {
        return false;
    }
    let rows = &t[..n * ROW];
    all_common(rows, ROW, 0) && rows.chunks_exact(ROW).all(row_in_range) && keys_rise(rows, ROW, 0)
}

pub fn count_plans(b: &[u8], used: usize) -> usize {
    let n = used / PLAN;
    (0..n).find(|&i| b[i * PLAN] != 1).unwrap_or(n)
}

/// The second pass over updates: each in range, and where it may follow the one before.
fn updates_follow(updates: &[u8]) -> bool {
    let (mut last, mut sender, mut kind) = (0, 0, 0);
    for e in updates.chunks_exact(ENTRY) {
        let (k, n, s) = (e[0], number(e, 1, 4), e[5]);
        let follows = (n as u64 == last as u64 + 1) | (n == last) & (s == sender) & (k == kind);
        if !(((2..=3).contains(&k) & (1 <= s) & update_in_range(&e[BODY_AT..])) & follows) {
            return false;
        }
        (last, sender, kind) = (n, s, k);
    }
    true
}

pub fn book_is_sound(b: &[u8], used: usize) -> bool {
    if b.len().min(294_912) < used {
        return false;
    }
    let (plans, updates) = b[..used].split_at(count_plans(b, used) * PLAN);
    updates.len().is_multiple_of(ENTRY)
        && all_common(plans, PLAN, 1)
        && plans.chunks_exact(PLAN).all(|plan| plan_in_range(&plan[1..]))
        && keys_rise(plans, PLAN, 1)
        && all_common(updates, ENTRY, BODY_AT)
        && updates_follow(updates)
}
