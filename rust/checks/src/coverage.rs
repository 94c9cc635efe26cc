//! What generated calls reach, counted by name, and how often each has to be met. A run of calls that falls short of one of them says
//! little about it, and fails.

use std::collections::{BTreeMap, BTreeSet};
use std::fmt;

use crate::call::{Call, Job, Outcome};
use crate::worlds::calendar::{day_of_number, number_of_day};

mod boards;
mod dossiers;
mod feeds;
mod forms;
mod least;
mod updates;

/// How often each thing was met.
#[derive(Default)]
pub struct Coverage {
    calls: u64,
    met: BTreeMap<String, u64>,
    /// First and last days of months that stand in an accepted row.
    month_ends: BTreeSet<u32>,
}

impl Coverage {
    /// Counts a call and what came of it.
    pub fn count(&mut self, job: &Job, outcome: &Outcome) {
        self.calls += 1;
        let accepted = outcome.answer[0] == 0;
        match &job.call {
            Call::Open { planning, calendar } => {
                self.opened(job, outcome);
                match outcome.answer[3] {
                    1 => self.dossier(planning, outcome, "planning", 0),
                    2 => self.dossier(calendar, outcome, "calendar", 0),
                    _ => {}
                }
            }
            Call::Message { dossier, sender, form, register } => {
                let which = if *form == 1 { "8.5 message" } else { "message" };
                self.dossier(dossier, outcome, which, *form);
                self.stated("message", *form, dossier, [outcome.answer[0], outcome.answer[1]]);
                self.sent(job, outcome, *sender, register);
            }
            Call::Feed(feeding) => {
                self.fed(job, feeding, outcome);
                return;
            }
            Call::Withdraw { number, sender } => self.withdrawn(job, outcome, *number, *sender),
            Call::Board { .. } if accepted => self.shown(job, outcome),
            Call::Board { .. } => self.not_asked(job, outcome),
        }
        if outcome.answer[0] == 1 {
            self.unsound(job);
        }
    }

    fn meet(&mut self, name: impl Into<String>) {
        *self.met.entry(name.into()).or_default() += 1;
    }

    fn meet_where(&mut self, holds: bool, name: &str) {
        if holds {
            self.meet(name);
        }
    }

    /// Puts the counts of another part of the same run of calls to these.
    pub fn add(&mut self, other: &Coverage) {
        self.calls += other.calls;
        for (name, count) in &other.met {
            *self.met.entry(name.clone()).or_default() += count;
        }
        self.month_ends.extend(&other.month_ends);
    }

    /// Keeps the ends of months among the dates of accepted rows.
    fn date(&mut self, date: u32) {
        let day = day_of_number(date);
        if date % 100 == 1 || number_of_day(day + 1) % 100 == 1 {
            self.month_ends.insert(date);
        }
    }

    /// How often a name was met.
    pub fn of(&self, name: &str) -> u64 {
        match name {
            "first and last days of months" => self.month_ends.len() as u64,
            _ => self.met.get(name).copied().unwrap_or(0),
        }
    }

    /// What was met too seldom: its name, how often it was met, and how often it had to be.
    pub fn short(&self) -> Vec<(String, u64, u64)> {
        let wanted = least::least(self.calls);
        let met = wanted.into_iter().map(|(name, least)| (self.of(&name), name, least));
        met.filter(|(met, _, least)| met < least).map(|(met, name, least)| (name, met, least)).collect()
    }

    /// 4.6: what made a call unsound, as far as it can be told without judging bytes.
    fn unsound(&mut self, job: &Job) {
        let lent = &job.lent;
        let register =
            matches!(&job.call, Call::Message { register, .. } if register.len() % 11 != 0 || register.len() > 704);
        let used = !matches!(job.call, Call::Board { .. }) && lent.used > lent.book.len().min(294_912) as u64;
        let rows = lent.rows > (lent.table.len() / 67).min(2_048) as u64;
        self.meet_where(register, "1 by the register");
        self.meet_where(used, "1 by the used bytes");
        self.meet_where(rows, "1 by the rows");
        self.meet_where(used && lent.used <= lent.book.len() as u64, "1 by used bytes over the size");
        self.meet_where(rows && lent.rows <= (lent.table.len() / 67) as u64, "1 by rows over the size");
        self.meet_where(!register && !used && !rows, "1 by contents");
    }
}

impl fmt::Display for Coverage {
    fn fmt(&self, f: &mut fmt::Formatter) -> fmt::Result {
        for (name, met) in &self.met {
            writeln!(f, "{met:>9}  {name}")?;
        }
        writeln!(f, "{:>9}  first and last days of months", self.month_ends.len())
    }
}

/// A big-endian number.
fn number(bytes: &[u8]) -> u32 {
    bytes.iter().fold(0, |value, &byte| value << 8 | u32::from(byte))
}
