//! The layout of a passage, its ranges, and the rule by which an update changes it.

use super::dates;
use super::lanes::{self, Masks};

pub const TEXT: usize = 10;
pub const KEY: usize = 41;
pub const BODY: usize = 66;
pub const ROW: usize = 67;

pub const OWNER: usize = 0;
pub const DATE: usize = 10;
pub const LINE: usize = 14;
pub const JOURNEY: usize = 24;
pub const FORTIFY: usize = 28;
pub const STOP: usize = 29;
pub const ORDER: usize = 39;
pub const DESTINATION: usize = 41;
pub const STAMP: usize = 51;
pub const STATUS: usize = 55;
pub const ARRIVAL: usize = 56;
pub const DEPARTURE: usize = 59;
pub const STOP_TYPE: usize = 62;
pub const SHOW_CANCELLED: usize = 63;
pub const FLEXIBLE: usize = 64;
pub const MONITORED: usize = 65;
pub const HEARD: usize = 66;

/// A time that is not there.
pub const MISSING: u32 = 16_777_215;
/// An optional column without content.
pub const ABSENT: u8 = 255;

pub const CANCEL: u8 = 1;
pub const PASSED: u8 = 5;
pub const FIRST: u8 = 0;
pub const LAST: u8 = 2;

const TIMES: u32 = 115_200;
const FIRST_STAMP: u32 = 946_634_400;
const LAST_STAMP: u32 = 4_102_495_199;

pub type Body = [u8; BODY];
pub type Row = [u8; ROW];

#[inline(always)]
pub fn number4(bytes: &[u8], at: usize) -> u32 {
    u32::from_be_bytes(bytes[at..at + 4].try_into().unwrap())
}

#[inline(always)]
pub fn number3(bytes: &[u8], at: usize) -> u32 {
    u32::from_be_bytes([0, bytes[at], bytes[at + 1], bytes[at + 2]])
}

#[inline(always)]
pub fn put3(bytes: &mut [u8], at: usize, n: u32) {
    bytes[at..at + 3].copy_from_slice(&n.to_be_bytes()[1..]);
}

/// A key as three big numbers whose order is that of the bytes. The last two
/// overlap, which changes nothing where the first two are equal.
#[derive(Clone, Copy, PartialEq, Eq, PartialOrd, Ord)]
pub struct Key(u128, u128, u128);

#[inline(always)]
fn big(bytes: &[u8], at: usize) -> u128 {
    u128::from_be_bytes(bytes[at..at + 16].try_into().unwrap())
}

impl Key {
    /// The key at the start of a body, row or key.
    #[inline(always)]
    pub fn of(bytes: &[u8]) -> Key {
        let key: &[u8; KEY] = bytes[..KEY].try_into().unwrap();
        Key(big(key, 0), big(key, 16), big(key, 25))
    }

    pub fn hash(&self) -> u64 {
        let fold = |n: u128, a: u64, b: u64| {
            let product = (n as u64 ^ a) as u128 * ((n >> 64) as u64 ^ b) as u128;
            product as u64 ^ (product >> 64) as u64
        };
        let x = fold(self.0, 0x9e37_79b9_7f4a_7c15, 0xd1b5_4a32_d192_ed03);
        let y = fold(self.1, 0xa076_1d64_78bd_642f, 0xe703_7ed1_a0b4_28db);
        let z = fold(self.2, 0x8ebc_6af0_9c88_c6e3, 0x5899_65cc_7537_4cc3);
        x ^ y.rotate_left(21) ^ z.rotate_left(42)
    }
}

/// The first key is strictly below the second: what a subtraction of long
/// numbers borrows in the end. Without branches, since neighbours in a table
/// begin to differ at any depth.
#[inline(always)]
pub fn below(first: &[u8; KEY], second: &[u8; KEY]) -> bool {
    let word = |key: &[u8; KEY], at: usize| u64::from_be_bytes(key[at..at + 8].try_into().unwrap());
    let mut borrow = false;
    for at in [33, 25, 17, 9, 1] {
        (_, borrow) = word(first, at).borrowing_sub(word(second, at), borrow);
    }
    first[0].borrowing_sub(second[0], borrow).1
}

/// What the fields of a body tell about their kind.
#[derive(Clone, Copy, PartialEq)]
pub enum Kind {
    Plan,
    Update,
    /// A table row with its "heard" byte.
    Row(u8),
}

const fn text_masks() -> Masks {
    let mut masks = Masks { text: [0; 64], first: [0; 64], inner: [0; 64] };
    let starts = [OWNER, LINE, STOP, DESTINATION];
    let mut i = 0;
    while i < 4 * TEXT {
        let (start, place) = (starts[i / TEXT], i % TEXT);
        masks.text[start + place] = 255;
        if place == 0 {
            masks.first[start] = 255;
        }
        if place + 1 < TEXT {
            masks.inner[start + place] = 255;
        }
        i += 1;
    }
    masks
}

static MASKS: Masks = text_masks();

/// Checks bodies one after another; a date seen before needs no second look.
pub struct Ranges {
    last_date: u32,
}

impl Ranges {
    pub fn new() -> Self {
        Ranges { last_date: 20000101 }
    }

    #[inline(always)]
    fn date(&mut self, date: u32) -> bool {
        if date == self.last_date {
            return true;
        }
        self.last_date = date;
        dates::is_date(date)
    }

    /// Every field of the body is in its range for its kind. After a `false`
    /// the checker is not used again.
    #[inline(always)]
    pub fn sound(&mut self, body: &Body, kind: Kind) -> bool {
        let texts = lanes::text_faults(body[..65].try_into().unwrap(), &MASKS) == 0;
        let date = self.date(number4(body, DATE));
        let order = u16::from_be_bytes([body[ORDER], body[ORDER + 1]]) <= 999;
        let numbers = (number4(body, JOURNEY) <= 999_999) & (body[FORTIFY] <= 99) & order;
        texts & date & numbers & times_sound(body) & kind_sound(body, kind)
    }
}

#[inline(always)]
fn times_sound(body: &Body) -> bool {
    let word = u64::from_be_bytes(body[STATUS..STATUS + 8].try_into().unwrap());
    let status = (word >> 56) as u8;
    let arrival = (word >> 32) as u32 & MISSING;
    let departure = (word >> 8) as u32 & MISSING;
    let stop_type = word as u8;
    (status <= PASSED)
        & (stop_type <= LAST)
        & ((arrival < TIMES) | (arrival == MISSING) & (stop_type == FIRST))
        & ((departure < TIMES) | (departure == MISSING) & (stop_type == LAST))
}

#[inline(always)]
fn kind_sound(body: &Body, kind: Kind) -> bool {
    let stamp = number4(body, STAMP);
    let stamped = stamp.wrapping_sub(FIRST_STAMP) <= LAST_STAMP - FIRST_STAMP;
    // Stop type, show cancelled, flexible, monitored in one number.
    let shows = number4(body, STOP_TYPE);
    match kind {
        Kind::Plan => (stamp == 0) & (body[STATUS] == 0) & (shows & 0x00ff_fcff == 0x0001_0000),
        Kind::Update => {
            let flag = |at: usize, most: u8| body[at].wrapping_add(1) <= most + 1;
            let flexible = body[FLEXIBLE];
            let known = (flexible.wrapping_add(1) <= 4) & (flexible != 0);
            stamped & flag(SHOW_CANCELLED, 2) & flag(MONITORED, 1) & known
        }
        Kind::Row(heard) => {
            let told = if heard == 1 { stamped } else { stamp == 0 };
            told & (heard <= 1) & (shows & 0x00fc_fcfe == 0) & (body[SHOW_CANCELLED] <= 2)
        }
    }
}

/// The moves that table 17 allows, a bit per new status, by held status.
const MOVES: [u8; 6] = [0b111110, 0b111011, 0b111110, 0b111110, 0b110110, 0b110000];

/// A passage that was never planned, before its first update.
#[inline(always)]
pub fn unplanned(update: &Body) -> Row {
    let mut row = [0; ROW];
    row[..KEY].copy_from_slice(&update[..KEY]);
    row[SHOW_CANCELLED] = 1;
    row
}

/// Applies an update to the row that is held.
#[inline(always)]
pub fn apply(row: &mut Row, update: &Body) {
    let held = row[STATUS];
    let told = update[STATUS];
    row[DESTINATION..STATUS].copy_from_slice(&update[DESTINATION..STATUS]);
    row[ARRIVAL..SHOW_CANCELLED].copy_from_slice(&update[ARRIVAL..SHOW_CANCELLED]);
    if MOVES[held as usize % 6] >> (told & 7) & 1 == 1 {
        row[STATUS] = told;
    }
    for at in [SHOW_CANCELLED, FLEXIBLE, MONITORED] {
        if update[at] != ABSENT {
            row[at] = update[at];
        }
    }
    row[HEARD] = 1;
}
