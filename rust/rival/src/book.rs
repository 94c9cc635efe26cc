//! The book: plan entries by key, then updates by message number.

use super::passage::{below, number4, Body, Kind, Ranges, BODY, KEY};
use super::sorted::Sorted;

/// Of a lent book at most this many bytes are used.
pub const SIZE: usize = 294_912;
pub const PLAN: usize = 1 + BODY;
pub const UPDATE: usize = 6 + BODY;

pub const KIND_PLAN: u8 = 1;
pub const KIND_STANDING: u8 = 2;
pub const KIND_WITHDRAWN: u8 = 3;

/// Bytes of a lent book that may be used.
pub fn room(book: &[u8]) -> usize {
    book.len().min(SIZE)
}

/// A sound book's parts: lengths in bytes.
#[derive(Clone, Copy)]
pub struct Parts {
    pub plan: usize,
    pub used: usize,
    /// Number of the last message, 0 if there is none.
    pub last: u32,
}

/// Checks the used bytes.
pub fn sound(book: &[u8], used: u64) -> Option<Parts> {
    if used > room(book) as u64 {
        return None;
    }
    let used = used as usize;
    let bytes = &book[..used];
    let mut ranges = Ranges::new();
    let plan = plan_part(bytes, &mut ranges)?;
    let last = update_part(&bytes[plan..], &mut ranges)?;
    Some(Parts { plan, used, last })
}

/// Length of the plan part, if it is sound.
fn plan_part(bytes: &[u8], ranges: &mut Ranges) -> Option<usize> {
    let mut length = 0;
    let mut before = &[0; KEY];
    for entry in bytes.chunks_exact(PLAN) {
        if entry[0] != KIND_PLAN {
            break;
        }
        let body: &Body = entry[1..].try_into().unwrap();
        let key: &[u8; KEY] = body[..KEY].try_into().unwrap();
        if !(ranges.sound(body, Kind::Plan) & below(before, key)) {
            return None;
        }
        before = key;
        length += PLAN;
    }
    Some(length)
}

/// Number of the last message, if the updates are sound.
fn update_part(bytes: &[u8], ranges: &mut Ranges) -> Option<u32> {
    let entries = bytes.chunks_exact(UPDATE);
    if !entries.remainder().is_empty() {
        return None;
    }
    // Kind, number and sender together; entries of one message share them.
    let (mut head, mut last) = (u64::MAX, 0);
    for entry in entries {
        let word = u64::from_be_bytes(entry[..8].try_into().unwrap()) >> 16;
        if word != head {
            let (kind, number, sender) = ((word >> 40) as u8, (word >> 8) as u32, word as u8);
            let known = kind == KIND_STANDING || kind == KIND_WITHDRAWN;
            if !known || sender == 0 || number != last + 1 {
                return None;
            }
            (head, last) = (word, number);
        }
        if !ranges.sound(entry[6..].try_into().unwrap(), Kind::Update) {
            return None;
        }
    }
    Some(last)
}

/// The plan part, to look keys up in.
pub fn plan_sorted<'a>(book: &'a [u8], parts: &Parts) -> Sorted<'a> {
    Sorted::new(&book[..parts.plan], PLAN, 1)
}

/// The body of the plan entry at a place.
pub fn plan_body(book: &[u8], place: usize) -> &Body {
    book[place * PLAN + 1..(place + 1) * PLAN].try_into().unwrap()
}

/// The entries of a message, as byte offsets; the number is known to occur.
pub fn entries(book: &[u8], parts: &Parts, number: u32) -> std::ops::Range<usize> {
    let from = first_at_least(book, parts, number);
    // The last number plus one cannot overflow: a book has few updates.
    from..first_at_least(book, parts, number + 1)
}

fn first_at_least(book: &[u8], parts: &Parts, number: u32) -> usize {
    let at = |i: usize| parts.plan + i * UPDATE;
    let (mut low, mut high) = (0, (parts.used - parts.plan) / UPDATE);
    while low < high {
        let middle = (low + high) / 2;
        if number4(book, at(middle) + 1) < number {
            low = middle + 1;
        } else {
            high = middle;
        }
    }
    at(low)
}
