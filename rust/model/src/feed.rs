//! 7.6: a message in parts. All that was fed is kept here, and worked out anew at every part and at the end. Of the lent memory only the
//! numbers are used, to tell one feed from another, and the staging area; the line is not needed.

use std::cell::RefCell;
use std::collections::BTreeMap;
use std::rc::Rc;

use crate::answer::{numbers_of_day, Accepted, Refusal};
use crate::columns::{message_table, Wanted, OLD_MESSAGE};
use crate::day::registered;
use crate::layout::*;
use crate::message::{taken, update_body};
use crate::passage::Body;
use crate::reading::{read, read_before_fault, Read};

/// What stands first in the numbers of a begun feed: zeroed memory is none.
const BEGUN: u64 = 0x6265_6775_6e20_6665;

/// So many feeds, each as it was after each of its parts, are remembered; older ones have gone on or were left without an end.
const REMEMBERED: u64 = 1_000;

/// A part, with what was lent with it: the register, and how many rows the staging area had room for.
struct Part {
    bytes: Vec<u8>,
    register: Vec<u8>,
    room: usize,
}

/// A row that came with a part, and whether the staging area had room for it.
struct Row {
    part: usize,
    fitted: bool,
    body: Body,
}

/// What a feed was told.
#[derive(Clone)]
struct Told {
    sender: u8,
    form: u32,
    parts: Vec<Rc<Part>>,
}

/// What feeds of this thread were told by then, by number, and the next number: a feed has another number after each part, so that its
/// lent numbers say all of it.
#[derive(Default)]
struct Feeds {
    told: BTreeMap<u64, Told>,
    next: u64,
}

thread_local! {
    static FEEDS: RefCell<Feeds> = RefCell::default();
}

/// Keeps what a feed was told, and writes into its numbers under which number.
fn keep(told: Told, feed: &mut [u64; FEED_NUMBERS]) {
    *feed = [0; FEED_NUMBERS];
    FEEDS.with_borrow_mut(|feeds| {
        (feed[0], feed[1]) = (BEGUN, feeds.next);
        feeds.told.insert(feeds.next, told);
        feeds.told.remove(&feeds.next.wrapping_sub(REMEMBERED));
        feeds.next += 1;
    });
}

/// What the feed with these numbers was told; none where they are not those of a begun feed.
fn told(feed: &[u64; FEED_NUMBERS]) -> Option<Told> {
    let begun = feed[0] == BEGUN && feed[2..].iter().all(|number| *number == 0);
    FEEDS.with_borrow(|feeds| feeds.told.get(&feed[1]).filter(|_| begun).cloned())
}

/// Begin.
pub fn feed_begin(sender: u8, form: u32, feed: &mut [u64; FEED_NUMBERS]) -> u32 {
    keep(Told { sender, form, parts: Vec::new() }, feed);
    0
}

/// Feed: 0; or 1 where the numbers are not those of a begun feed, and then nothing changes. The rows that came with this part are staged.
pub fn feed(
    part: &[u8],
    register: &[u8],
    staging: &mut [u8],
    _line: &mut [u8; LINE_BYTES],
    feed: &mut [u64; FEED_NUMBERS],
) -> u32 {
    let Some(mut told) = told(feed) else { return 1 };
    let room = staging.len() / BODY_BYTES;
    told.parts.push(Rc::new(Part { bytes: part.to_vec(), register: register.to_vec(), room }));
    // A row comes with its line's LF: a part without one brings none.
    if part.contains(&b'\n') {
        let last = told.parts.len() - 1;
        for (place, row) in told.rows().iter().enumerate().filter(|(_, row)| row.part == last && row.fitted) {
            staging[place * BODY_BYTES..][..BODY_BYTES].copy_from_slice(&row.body.bytes());
        }
    }
    keep(told, feed);
    0
}

/// End, with its six numbers. An accepted one leaves all numbers of the feed zero, a refused one as they were.
#[allow(clippy::too_many_arguments)]
pub fn feed_end(
    register: &[u8],
    staging: &[u8],
    book: &mut [u8],
    table: &mut [u8],
    used: u64,
    rows: u64,
    feed: &mut [u64; FEED_NUMBERS],
) -> [u64; 6] {
    let outcome = match told(feed) {
        Some(told) => told.ended(register, staging, book, table, used, rows),
        None => Err(Refusal::Unsound),
    };
    if outcome.is_ok() {
        *feed = [0; FEED_NUMBERS];
    }
    numbers_of_day(outcome.map_err(|refusal| (refusal, 0)), used, rows)
}

impl Told {
    /// All bytes that were fed.
    fn dossier(&self) -> Vec<u8> {
        self.parts.iter().flat_map(|part| part.bytes.iter().copied()).collect()
    }

    /// What is wanted in its form; one that is not known is read as the old one.
    fn wanted(&self) -> &'static Wanted {
        message_table(self.form).unwrap_or(&OLD_MESSAGE)
    }

    /// Which part ended a row's line: with it the row came.
    fn part_of(&self, row: &Read) -> usize {
        let mut fed = 0;
        let ended_it = |part: &Rc<Part>| {
            fed += part.bytes.len();
            row.last < fed
        };
        self.parts.iter().position(ended_it).expect("a row's bytes were fed")
    }

    /// Whether the row's owner was registered when the row came. All whole pairs of the register counted.
    fn was_registered(&self, row: &Read) -> bool {
        registered(&self.parts[self.part_of(row)].register, self.sender, &row.text("DataOwnerCode"))
    }

    /// The rows before the first line at fault (3 to 6, 15) within the first 65,536 bytes. Each has its own place in the staging area, one
    /// behind the other, and fitted where there was room up to there when it came.
    fn rows(&self) -> Vec<Row> {
        let dossier = self.dossier();
        let within = &dossier[..dossier.len().min(DOSSIER_BYTES)];
        let read = read_before_fault(within, self.wanted());
        let right = read.iter().take_while(|row| self.was_registered(row));
        let row = |(place, row): (usize, &Read)| {
            let part = self.part_of(row);
            Row { part, fitted: place < self.parts[part].room, body: update_body(row) }
        };
        right.enumerate().map(row).collect()
    }

    /// How many rows lie in the staging area: those before the first that did not fit.
    fn staged(&self) -> usize {
        self.rows().iter().take_while(|row| row.fitted).count()
    }

    /// The end's order: 1, 18, 2, 3, 15, 4, 5, 6, 14, 7, 8.
    fn ended(
        &self,
        register: &[u8],
        staging: &[u8],
        book: &mut [u8],
        table: &mut [u8],
        used: u64,
        rows: u64,
    ) -> Result<Accepted, Refusal> {
        taken(|| self.said(register, staging), self.sender, register, book, table, used, rows)
    }

    /// 1 where a staged row is outside an update's range; 18 where the form is not known; 2 to 6 and 15 as they were found in reading, 6 by
    /// the register lent with each row; 6 with line 0 where the register lent now does not grant a staged row's owner; 14 where the staging area has, or had, no room for all
    /// rows; else the staged rows as they are now.
    fn said(&self, register: &[u8], staging: &[u8]) -> Result<Vec<Body>, Refusal> {
        let rows_now = staging.chunks_exact(BODY_BYTES).map(Body::read);
        let staged: Vec<Body> = rows_now.take(self.staged()).collect();
        if !staged.iter().all(Body::is_update) {
            return Err(Refusal::Unsound);
        }
        if message_table(self.form).is_none() {
            return Err(Refusal::UnknownForm);
        }
        let read = read(&self.dossier(), self.wanted())?;
        if let Some(row) = read.iter().find(|row| !self.was_registered(row)) {
            return Err(Refusal::NotRegistered { line: row.line });
        }
        if staged.iter().any(|body| !registered(register, self.sender, &body.key.owner)) {
            return Err(Refusal::NotRegistered { line: 0 });
        }
        if read.len() > staged.len() {
            return Err(Refusal::StagingShort);
        }
        Ok(staged)
    }
}
