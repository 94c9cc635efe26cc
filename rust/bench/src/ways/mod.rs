//! The proved library's ways of working, in Rust: the steps of `crates/*/src/lib.rt` without their promises. For the benchmark alone, which
//! tells by it what a way of working costs and what the compiler makes of the same way. Where rustc would not make of a loop what the kit's
//! compiler makes of it (eight bytes as one number, bytes that move on), that is written out.
// The steps are the proved code's, loop by loop.
#![allow(clippy::needless_range_loop, clippy::manual_range_contains)]

pub mod applying;
pub mod boards;
pub mod opening;
pub mod reading;
pub mod soundness;
pub mod syntax;
pub mod withdrawing;

pub const KEY: usize = 41;
pub const BODY: usize = 66;
pub const ROW: usize = 67;
pub const PLAN: usize = 67;
pub const ENTRY: usize = 72;
/// Where a body begins in an update's entry.
pub const BODY_AT: usize = 6;

// `lists`

fn number(s: &[u8], at: usize, w: usize) -> u32 {
    s[at..at + w].iter().fold(0, |n, &b| n * 256 + b as u32)
}

fn put_number(s: &mut [u8], at: usize, w: usize, v: u32) {
    let mut rest = v;
    for b in s[at..at + w].iter_mut().rev() {
        *b = (rest % 256) as u8;
        rest /= 256;
    }
}

fn copy_to(s: &mut [u8], at: usize, from: &[u8]) {
    s[at..at + from.len()].copy_from_slice(from);
}

/// One by one, with a way out at each.
fn same_bytes(a: &[u8], b: &[u8]) -> bool {
    a.len() == b.len() && (0..a.len()).all(|i| a[i] == b[i])
}

// `clock`

fn is_date(n: u32) -> bool {
    let (y, m, d) = (n / 10_000, n / 100 % 100, n % 100);
    let days = match m {
        2 if y.is_multiple_of(4) => 29,
        2 => 28,
        4 | 6 | 9 | 11 => 30,
        _ => 31,
    };
    (2000..=2099).contains(&y) && (1..=12).contains(&m) && 1 <= d && d <= days
}

fn day_count(date: u32) -> u32 {
    const BEFORE: [u32; 12] = [0, 31, 59, 90, 120, 151, 181, 212, 243, 273, 304, 334];
    let (y, m) = (date / 10_000 - 2000, (date / 100 % 100 - 1) as usize);
    y * 365 + y.div_ceil(4) + BEFORE[m] + (m >= 2 && y.is_multiple_of(4)) as u32 + date % 100 - 1
}

// `keys`

use std::cmp::Ordering;

fn word_at(s: &[u8], at: usize) -> u64 {
    u64::from_be_bytes(s[at..at + 8].try_into().unwrap())
}

/// The key at p of a against the key at q of b: word by word, and the last byte by itself.
fn compare_key(a: &[u8], p: usize, b: &[u8], q: usize) -> Ordering {
    let (a, b) = (&a[p..p + KEY], &b[q..q + KEY]);
    for i in 0..KEY / 8 {
        match word_at(a, i * 8).cmp(&word_at(b, i * 8)) {
            Ordering::Equal => {}
            order => return order,
        }
    }
    a[KEY - 1].cmp(&b[KEY - 1])
}

// `table`, `book_find` and `sorting`: halving, over anything that has keys at places

/// Where the key at q of k stands among n keys, or would be put.
fn find(n: usize, s: &[u8], at: impl Fn(usize) -> usize, k: &[u8], q: usize) -> Result<usize, usize> {
    let (mut low, mut high) = (0, n);
    while low < high {
        let middle = low + (high - low) / 2;
        match compare_key(s, at(middle), k, q) {
            Ordering::Less => low = middle + 1,
            Ordering::Equal => return Ok(middle),
            Ordering::Greater => high = middle,
        }
    }
    Err(low)
}

fn find_row(t: &[u8], n: usize, k: &[u8], q: usize) -> Result<usize, usize> {
    find(n, t, |i| i * ROW, k, q)
}

/// The row is put in at place i of n rows: all rows behind it move on, from the end, 32 bytes at a time.
fn insert_row(t: &mut [u8], n: usize, i: usize, row: &[u8]) {
    let (from, mut end) = (i * ROW, n * ROW);
    while 32 <= end - from {
        end -= 32;
        let block: [u8; 32] = t[end..end + 32].try_into().unwrap();
        copy_to(t, end + ROW, &block);
    }
    for j in (from..end).rev() {
        t[j + ROW] = t[j];
    }
    copy_to(t, from, row);
}

// `update`

/// Table 17: from each status a line, to each status a letter, J where the status moves.
const MOVES: [u8; 36] = *b"NJJJJJJJNJJJNJJJJJNJJJJJNJJNJJNNNNJJ";

/// The row from `at` on becomes what the update at p of u makes of it.
fn apply_row(row: &mut [u8], at: usize, u: &[u8], p: usize) {
    let (row, u) = (&mut row[at..at + ROW], &u[p..p + BODY]);
    let (held, said) = (row[55], u[55]);
    let moves = held <= 5 && said <= 5 && MOVES[held as usize * 6 + said as usize] == b'J';
    let kept_or = |held: u8, said: u8| if said == 255 { held } else { said };
    let kept = [63, 64, 65].map(|i| kept_or(row[i], u[i]));
    copy_to(row, 0, u);
    row[66] = 1;
    row[55] = if moves { said } else { held };
    copy_to(row, 63, &kept);
}

/// What a missing passage begins as.
fn begin_row(row: &mut [u8], at: usize) {
    row[at..at + ROW].fill(0);
    row[at + 63] = 1;
}
