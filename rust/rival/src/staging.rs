//! What becomes of each line of a dossier in parts, once it is whole: a table's
//! name, the places of its columns, or a row for the staging area.

use super::answer::LINE;
use super::feed::*;
use super::lanes;
use super::message::{grants, update, wanted, COLUMNS};
use super::passage::{BODY, TEXT};
use super::rows::{is_named, Ends, Fields, Labels, SLOTS};
use super::stream::Kind;

/// The lines of a part, as they end.
pub struct Lines<'a, const FORM: bool> {
    pub part: &'a [u8],
    /// Bytes of the dossier before the part.
    pub before: usize,
    pub line: &'a mut [u8; LINE],
    pub staging: Staging<'a, FORM>,
}

impl<const FORM: bool> Lines<'_, FORM> {
    /// A line has ended; the next one begins at `next` of the part.
    pub fn ended(&mut self, kind: Kind, next: usize) {
        let feed = &mut self.staging.feed;
        let (from, to) = (feed[LINE_START] as usize, self.before + next);
        feed[LINE_START] = to as u64;
        feed[LINES] += 1;
        if to - from > LINE {
            if feed[LONG] == 0 {
                feed[LONG] = feed[LINES];
            }
        } else if reads(feed, kind) {
            if from >= self.before {
                self.staging.read(kind, self.part, from - self.before, next - 2);
            } else {
                let held = self.before - from;
                self.line[held..held + next].copy_from_slice(&self.part[..next]);
                self.staging.read(kind, self.line, 0, to - from - 2);
            }
        }
    }
}

pub struct Staging<'a, const FORM: bool> {
    pub register: &'a [u8],
    pub sender: u8,
    pub rows: &'a mut [u8],
    pub feed: &'a mut Numbers,
    /// An owner that the register has granted in this part.
    pub known: Option<[u8; TEXT]>,
    pub columns: Option<Columns>,
}

impl<const FORM: bool> Staging<'_, FORM> {
    /// The line from `start`, whose CR is at `stop`.
    #[inline(always)]
    fn read(&mut self, kind: Kind, bytes: &[u8], start: usize, stop: usize) {
        let number = self.feed[LINES];
        match kind {
            Kind::Group => {}
            Kind::Table => self.feed[WANTS] = is_named(bytes, start + 2, wanted::<FORM>().table) as u64,
            Kind::Labels => {
                let mut ends = Seen::from(bytes, start + 2);
                match Labels::read(bytes, &mut ends, start + 2, stop, wanted::<FORM>()) {
                    Some(labels) => self.columns = Some(Columns::of(&labels).kept(self.feed)),
                    None => self.feed[SHAPE] = number,
                }
            }
            Kind::Data => self.row(number, bytes, start, stop),
        }
    }

    /// A row of the wanted table. After a fault of its type, rows are only
    /// counted out; after one of the register they are still read.
    #[inline(always)]
    fn row(&mut self, number: u64, bytes: &[u8], start: usize, stop: usize) {
        let columns = *self.columns.get_or_insert_with(|| Columns::held(self.feed));
        let mut fields = Fields { bytes, spans: [(0, 0); SLOTS], present: columns.present };
        if !columns.split(&mut fields, &mut Seen::from(bytes, start), start, stop) {
            self.feed[SHAPE] = number;
            return;
        }
        if self.feed[TYPE] != 0 {
            return;
        }
        let mut body = [0; BODY];
        let faults = update::<FORM>(&fields, &mut body);
        if faults != 0 {
            self.feed[TYPE] = number;
            self.feed[COLUMN] = columns.first_place(faults);
            return;
        }
        if self.feed[STRANGER] != 0 {
            return;
        }
        let owner = body[..TEXT].try_into().unwrap();
        if self.known != Some(owner) {
            if !grants(self.register, self.sender, &owner) {
                self.feed[STRANGER] = number;
                return;
            }
            self.known = Some(owner);
        }
        let place = self.feed[ROWS] as usize;
        self.feed[ROWS] += 1;
        // Each has its own place; those count that lie there with all before them.
        if let Some(room) = self.rows.get_mut(place * BODY..(place + 1) * BODY) {
            room.copy_from_slice(&body);
            self.feed[LYING] += (self.feed[LYING] as usize == place) as u64;
        }
    }
}

/// The field ends of one line, found on the way.
struct Seen<'a> {
    bytes: &'a [u8],
    at: usize,
    word: u64,
}

impl<'a> Seen<'a> {
    #[inline(always)]
    fn from(bytes: &'a [u8], at: usize) -> Self {
        Seen { bytes, at, word: ends_at(bytes, at) }
    }
}

impl Ends for Seen<'_> {
    #[inline(always)]
    fn next(&mut self) -> usize {
        while self.word == 0 {
            self.at += 64;
            if self.at >= self.bytes.len() {
                return usize::MAX;
            }
            self.word = ends_at(self.bytes, self.at);
        }
        let bit = self.word.trailing_zeros() as usize;
        self.word &= self.word - 1;
        self.at + bit
    }
}

#[inline(always)]
fn ends_at(bytes: &[u8], at: usize) -> u64 {
    match bytes[at..].first_chunk() {
        Some(block) => lanes::ends64(block),
        None => ends_at_end(&bytes[at..]),
    }
}

#[cold]
fn ends_at_end(rest: &[u8]) -> u64 {
    let mut block = [0; 64];
    block[..rest.len()].copy_from_slice(rest);
    lanes::ends64(&block)
}

/// Where the wanted columns stand in a line, in the order of their places.
#[derive(Clone, Copy)]
pub struct Columns {
    count: usize,
    /// Four bits for each: which column it is.
    order: u64,
    /// How many columns nobody wants stand before each.
    gaps: [u16; COLUMNS],
    /// And how many behind the last.
    behind: u32,
    present: u32,
}

impl Columns {
    fn of(labels: &Labels) -> Columns {
        let mut columns = Columns { count: 0, order: 0, gaps: [0; COLUMNS], behind: 0, present: labels.present };
        for &slot in &labels.slots {
            if (slot as usize) < COLUMNS {
                columns.order |= (slot as u64) << (4 * columns.count);
                columns.gaps[columns.count] = columns.behind as u16;
                columns.count += 1;
                columns.behind = 0;
            } else {
                columns.behind += 1;
            }
        }
        columns
    }

    /// Kept in the feed for the parts to come.
    fn kept(self, feed: &mut Numbers) -> Columns {
        feed[SHAPES] = self.count as u64 | (self.behind as u64) << 8 | (self.present as u64) << 32;
        feed[ORDER] = self.order;
        for (number, gaps) in feed[GAPS..].iter_mut().zip(self.gaps.as_chunks::<4>().0) {
            *number = gaps.iter().rev().fold(0, |number, &gap| number << 16 | gap as u64);
        }
        self
    }

    fn held(feed: &Numbers) -> Columns {
        let shapes = feed[SHAPES];
        let mut columns = Columns {
            count: (shapes as u8 as usize).min(COLUMNS),
            order: feed[ORDER],
            gaps: [0; COLUMNS],
            behind: (shapes >> 8) as u32 & 0xff_ffff,
            present: (shapes >> 32) as u32,
        };
        for (gaps, &number) in columns.gaps.as_chunks_mut::<4>().0.iter_mut().zip(&feed[GAPS..]) {
            *gaps = [0, 16, 32, 48].map(|at| (number >> at) as u16);
        }
        columns
    }

    #[inline(always)]
    fn slot(&self, place: usize) -> usize {
        (self.order >> (4 * place)) as usize & 15
    }

    /// Splits one data line; `false` if it has not one field for each label.
    #[inline(always)]
    fn split(&self, fields: &mut Fields, ends: &mut impl Ends, start: usize, stop: usize) -> bool {
        let mut start = start;
        for (place, &gap) in self.gaps[..self.count].iter().enumerate() {
            for _ in 0..gap {
                let end = ends.next();
                if end >= stop {
                    return false;
                }
                start = end + 1;
            }
            let end = ends.next();
            fields.spans[self.slot(place)] = (start as u32, end.min(stop) as u32);
            if end >= stop {
                return place + 1 == self.count && self.behind == 0;
            }
            start = end + 1;
        }
        (1..self.behind).all(|_| ends.next() < stop) && self.behind > 0 && ends.next() >= stop
    }

    /// The smallest place among faulty columns, given as bits.
    #[cold]
    fn first_place(&self, faults: u32) -> u64 {
        let mut place = 0;
        for (i, &gap) in self.gaps[..self.count].iter().enumerate() {
            place += gap as u64 + 1;
            if faults >> self.slot(i) & 1 == 1 {
                break;
            }
        }
        place
    }
}
