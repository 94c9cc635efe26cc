//! Opens, messages and withdrawals: table 17's cells, room to the last byte, many lines.

use std::collections::BTreeMap;

use super::{number, Coverage};
use crate::call::{Job, Outcome};

const STATUSES: [&str; 6] = ["PLANNED", "CANCEL", "UNKNOWN", "DRIVING", "ARRIVED", "PASSED"];

/// A book of more bytes is not replayed here: small ones meet every cell.
const REPLAYED: u64 = 20_000;

impl Coverage {
    /// Room of book and table after an accepted call.
    fn room(&mut self, call: &str, job: &Job, outcome: &Outcome) {
        let [.., used, rows] = outcome.answer;
        self.meet_where(used == job.lent.book.len() as u64, &format!("{call}: to the last byte lent"));
        self.meet_where(used == 294_912, &format!("{call}: to byte 294,912"));
        self.meet_where(rows == (job.lent.table.len() / 67) as u64, &format!("{call}: to the last row lent"));
        self.meet_where(rows == 2_048, &format!("{call}: to row 2,048"));
        for row in outcome.table[..rows as usize * 67].chunks(67).take(40) {
            self.date(number(&row[10..14]));
        }
    }

    /// 7 and 8, by what is lent or by the size.
    fn short_of(&mut self, call: &str, job: &Job, outcome: &Outcome) {
        let book = if job.lent.book.len() < 294_912 { "what is lent" } else { "the size" };
        let table = if job.lent.table.len() / 67 < 2_048 { "what is lent" } else { "the size" };
        self.meet_where(outcome.answer[0] == 7, &format!("7: {call}, by {book}"));
        self.meet_where(outcome.answer[0] == 8, &format!("8: {call}, by {table}"));
    }

    pub(super) fn opened(&mut self, job: &Job, outcome: &Outcome) {
        self.short_of("open", job, outcome);
        self.meet_where(outcome.answer[0] == 9, "9: open");
        if outcome.answer[0] != 0 {
            return;
        }
        self.room("open", job, outcome);
        let rows: Vec<&[u8]> = outcome.table[..outcome.answer[5] as usize * 67].chunks(67).collect();
        let mut by_date: BTreeMap<&[u8], u64> = BTreeMap::new();
        let mut by_time: BTreeMap<Vec<u8>, u64> = BTreeMap::new();
        for row in &rows {
            *by_date.entry(&row[10..14]).or_default() += 1;
            *by_time.entry([&row[..10], &row[14..41]].concat()).or_default() += 1;
        }
        let most_dates = by_time.values().max().copied().unwrap_or(0);
        let most_times = by_date.values().max().copied().unwrap_or(0);
        self.meet_where(most_dates > 12, "open: over a dozen validities of a pass time");
        self.meet_where(most_dates > 1_000, "open: over 1,000 validities of a pass time");
        self.meet_where(most_times >= 1_400, "open: 1,400 pass times of a date");
        self.meet_where(rows.is_empty(), "open: nothing joins");
        self.meet_where(rows.windows(2).any(|pair| pair[0][..10] != pair[1][..10]), "open: several owners");
    }

    pub(super) fn sent(&mut self, job: &Job, outcome: &Outcome, sender: u8, register: &[u8]) {
        self.short_of("message", job, outcome);
        match outcome.answer {
            [0, 0, ..] => {
                self.meet("message: without rows");
                self.meet_where(
                    job.lent.used + 72 > job.lent.book.len().min(294_912) as u64,
                    "message: without rows, no room for one",
                );
            }
            [0, ..] => self.taken(job, outcome),
            [6, line, ..] => {
                self.meet(if sender == 0 { "6: the desk" } else { "6: a sender" });
                self.meet_where(line > 4, "6: behind the first line");
                let ours = register.chunks(11).any(|pair| pair[0] == sender);
                self.meet_where(ours && sender != 0, "6: a sender of other owners");
            }
            _ => {}
        }
    }

    /// An accepted message with rows, whole or in parts.
    pub(super) fn taken(&mut self, job: &Job, outcome: &Outcome) {
        self.room("message", job, outcome);
        let entries: Vec<&[u8]> = outcome.book[job.lent.used as usize..outcome.answer[4] as usize].chunks(72).collect();
        self.meet_where(entries.len() > 700, "message: over 700 rows");
        self.meet_where(outcome.answer[1] > 255, "message: a number beyond 255");
        self.meet_where(job.lent.rows == 2_048, "message: onto 2,048 rows");
        self.meet_where(outcome.answer[5] == job.lent.rows, "message: of held passages alone");
        let mut held = statuses(&job.lent.table[..job.lent.rows as usize * 67]);
        let mut shown = shows(&job.lent.table[..job.lent.rows as usize * 67]);
        for entry in &entries {
            let body = &entry[6..];
            if let Some(status) = held.get(&body[..41]) {
                self.meet(cell("message", *status, body[55]));
            } else {
                self.meet(format!("message: a new passage as {}", STATUSES[body[55] as usize]));
            }
            for (name, at) in [("show cancelled", 63), ("flexible", 64), ("monitored", 65)] {
                self.meet_where(body[at] == 255, &format!("message: {name} says nothing"));
            }
            let status = moved(held.get(&body[..41]).copied().unwrap_or(0), body[55]);
            held.insert(body[..41].to_vec(), status);
            self.show_cancelled(&mut shown, body);
        }
    }

    /// What is held of show cancelled, and what a row says.
    fn show_cancelled(&mut self, shown: &mut BTreeMap<Vec<u8>, u8>, body: &[u8]) {
        let held = shown.get(&body[..41]).copied();
        self.meet_where(body[63] == 2, "message: message is kept");
        self.meet_where(body[63] == 2 && held == Some(1), "message: message over true");
        self.meet_where(body[63] < 2 && held == Some(2), "message: another word over message");
        self.meet_where(body[63] == 255 && held == Some(2), "message: a held message stays");
        let now = if body[63] == 255 { held.unwrap_or(1) } else { body[63] };
        shown.insert(body[..41].to_vec(), now);
    }

    pub(super) fn withdrawn(&mut self, job: &Job, outcome: &Outcome, message: u32, sender: u8) {
        self.short_of("withdraw", job, outcome);
        match outcome.answer[0] {
            0 => self.undone(job, outcome, message, sender),
            10 => self.meet(if message == 0 { "10: number 0" } else { "10: another number" }),
            11 => self.meet(if sender == 0 { "11: by the desk" } else { "11: by the sender" }),
            12 => self.meet("12"),
            _ => {}
        }
    }

    /// An accepted withdrawal: what it leaves, and the cells met when its passages are worked out again.
    fn undone(&mut self, job: &Job, outcome: &Outcome, message: u32, sender: u8) {
        let (before, after) = (job.lent.rows, outcome.answer[5]);
        self.room("withdraw", job, outcome);
        self.meet(if sender == 0 { "withdraw: by the desk" } else { "withdraw: by the sender" });
        self.meet_where(after < before, "withdraw: rows leave");
        self.meet_where(after + 1 < before, "withdraw: two rows leave");
        self.meet_where(after > before, "withdraw: rows come");
        self.meet_where(outcome.answer[4] == 294_912, "withdraw: in a full book");
        if job.lent.used > REPLAYED {
            return;
        }
        let updates = updates(&outcome.book[..outcome.answer[4] as usize]);
        let named =
            |body: &[u8]| updates.iter().any(|entry| number(&entry[1..5]) == message && entry[6..47] == body[..41]);
        let mut held: BTreeMap<Vec<u8>, u8> = BTreeMap::new();
        for entry in updates.iter().filter(|entry| entry[0] == 2 && named(&entry[6..])) {
            let body = &entry[6..];
            let status = held.get(&body[..41]).copied().unwrap_or(0);
            self.meet(cell("withdraw", status, body[55]));
            self.meet_where(body[63] == 2, "withdraw: a row with message stands");
            self.meet_where(number(&entry[1..5]) < message, "withdraw: an earlier row stands");
            self.meet_where(number(&entry[1..5]) > message, "withdraw: a later row stands");
            held.insert(body[..41].to_vec(), moved(status, body[55]));
        }
        self.meet_where(held.is_empty(), "withdraw: no row stands");
        let older = updates.iter().any(|entry| entry[0] == 3 && number(&entry[1..5]) != message && named(&entry[6..]));
        self.meet_where(older, "withdraw: a row of another withdrawn message");
    }
}

fn cell(call: &str, held: u8, said: u8) -> String {
    format!("{call}: {} then {}", STATUSES[held as usize], STATUSES[said as usize])
}

/// Table 17 once more: the status after an update.
fn moved(held: u8, said: u8) -> u8 {
    match (held, said) {
        (0, 0) | (1, 2) | (2..=4, 0) | (4, 3) | (5, 0..=3) => held,
        _ => said,
    }
}

/// The statuses of rows by key.
fn statuses(rows: &[u8]) -> BTreeMap<Vec<u8>, u8> {
    rows.chunks(67).map(|row| (row[..41].to_vec(), row[55])).collect()
}

/// What rows say of show cancelled, by key.
fn shows(rows: &[u8]) -> BTreeMap<Vec<u8>, u8> {
    rows.chunks(67).map(|row| (row[..41].to_vec(), row[63])).collect()
}

/// The updates of a book, as entries.
fn updates(used: &[u8]) -> Vec<&[u8]> {
    let plans = used.chunks(67).take_while(|entry| entry[0] == 1).count();
    used[plans * 67..].chunks(72).collect()
}
