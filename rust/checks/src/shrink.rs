//! A call made as small as it can be while something still holds of it.

use std::collections::BTreeMap;

use layout::{entry_wide, KIND_AT, KIND_PLAN, NUMBER_AT, PAIR, ROW};

use crate::call::{Call, Job};
use crate::feeding::Step;

/// Cuts the job down as long as `holds` is true of what is left, with at most so many tries.
pub fn shrink(job: Job, tries: usize, holds: impl FnMut(&Job) -> bool) -> Job {
    let mut shrinker = Shrinker { job, holds, tries };
    loop {
        let before = size(&shrinker.job);
        shrinker.once();
        if size(&shrinker.job) == before || shrinker.tries == 0 {
            return shrinker.job;
        }
    }
}

fn size(job: &Job) -> usize {
    let texts: usize = texts(&mut job.call.clone()).iter().map(|text| text.len()).sum();
    let places = if let Call::Board { places, .. } = &job.call { places.len() } else { 0 };
    let steps = if let Call::Feed(feeding) = &job.call { feeding.steps.len() + usize::from(feeding.fill) } else { 0 };
    let form = usize::from(form_of(&mut job.call.clone()).is_some_and(|form| *form != 0));
    texts + places + steps + form + job.lent.book.len() + job.lent.table.len() + job.shift
}

struct Shrinker<F> {
    job: Job,
    holds: F,
    tries: usize,
}

/// What a call reads, with how its pieces end where they have an end.
fn texts(call: &mut Call) -> Vec<&mut Vec<u8>> {
    match call {
        Call::Open { planning, calendar } => vec![planning, calendar],
        Call::Message { dossier, register, .. } => vec![dossier, register],
        Call::Feed(feeding) => {
            let mut texts = vec![&mut feeding.staging];
            for step in &mut feeding.steps {
                match step {
                    Step::Part { bytes, register, .. } => texts.extend([bytes, register]),
                    Step::End { register, .. } => texts.push(register),
                    Step::Tamper { bytes, .. } => texts.push(bytes),
                    Step::Begin | Step::Clear | Step::Damage { .. } => {}
                }
            }
            texts
        }
        Call::Withdraw { .. } => Vec::new(),
        Call::Board { owner, stop, .. } => vec![owner, stop],
    }
}

type Pieces = Vec<Vec<u8>>;

impl<F: FnMut(&Job) -> bool> Shrinker<F> {
    fn once(&mut self) {
        self.change(|job| job.shift = 0);
        self.change(set_old_form);
        self.cut_steps();
        self.join_parts();
        self.change(set_fill);
        self.change(|job| (job.lent.used, job.lent.rows) = (0, 0));
        self.cut(table_rows, set_table_rows);
        self.cut(book_entries, set_messages);
        self.cut(book_entries, set_book_entries);
        self.cut(
            |job| bytes(&job.lent.table[used_table(job)..]),
            |job, tail| {
                job.lent.table.truncate(used_table(job));
                job.lent.table.extend(tail.concat());
            },
        );
        self.cut(
            |job| bytes(&job.lent.book[used_book(job)..]),
            |job, tail| {
                job.lent.book.truncate(used_book(job));
                job.lent.book.extend(tail.concat());
            },
        );
        for which in 0..texts(&mut self.job.call).len() {
            for split in [lines, pairs, bytes] {
                self.cut(
                    |job| split(texts(&mut job.call.clone())[which]),
                    |job, left| *texts(&mut job.call)[which] = left.concat(),
                );
            }
        }
        self.cut(places, set_places);
    }

    fn change(&mut self, change: impl Fn(&mut Job)) {
        let mut changed = self.job.clone();
        change(&mut changed);
        self.take(changed);
    }

    /// Leaves steps of a feed out.
    fn cut_steps(&mut self) {
        let Call::Feed(feeding) = &self.job.call else { return };
        let all = feeding.steps.clone();
        let places: Pieces = (0..all.len() as u32).map(|place| place.to_be_bytes().to_vec()).collect();
        let step =
            |piece: &Vec<u8>| all[u32::from_be_bytes(piece[..].try_into().expect("four bytes")) as usize].clone();
        self.cut(
            |_| places.clone(),
            |job, left| {
                if let Call::Feed(feeding) = &mut job.call {
                    feeding.steps = left.iter().map(step).collect();
                }
            },
        );
    }

    /// Makes one part of two that follow each other.
    fn join_parts(&mut self) {
        let mut at = 0;
        while let Some(joined) = joined_at(&self.job, at) {
            if !joined.is_some_and(|job| self.take(job)) {
                at += 1;
            }
        }
    }

    /// Leaves pieces out, many at a time and then fewer.
    fn cut(&mut self, split: impl Fn(&Job) -> Pieces, set: impl Fn(&mut Job, Pieces)) {
        let mut pieces = split(&self.job);
        let mut many = pieces.len();
        while many > 0 {
            let mut at = 0;
            while at < pieces.len() && self.tries > 0 {
                let mut left = pieces.clone();
                left.drain(at..(at + many).min(pieces.len()));
                let mut cut = self.job.clone();
                set(&mut cut, left.clone());
                if self.take(cut) {
                    pieces = left;
                } else {
                    at += many;
                }
            }
            many /= 2;
        }
    }

    fn take(&mut self, job: Job) -> bool {
        if self.tries == 0 || job == self.job {
            return false;
        }
        self.tries -= 1;
        let holds = (self.holds)(&job);
        if holds {
            self.job = job;
        }
        holds
    }
}

fn lines(text: &[u8]) -> Pieces {
    text.split_inclusive(|&byte| byte == b'\n').map(<[u8]>::to_vec).collect()
}

fn pairs(text: &[u8]) -> Pieces {
    text.chunks(PAIR).map(<[u8]>::to_vec).collect()
}

fn bytes(text: &[u8]) -> Pieces {
    text.iter().map(|&byte| vec![byte]).collect()
}

fn used_table(job: &Job) -> usize {
    job.lent.row_count() * ROW
}

fn used_book(job: &Job) -> usize {
    job.lent.used_book().len()
}

fn table_rows(job: &Job) -> Pieces {
    job.lent.table[..used_table(job)].chunks(ROW).map(<[u8]>::to_vec).collect()
}

fn set_table_rows(job: &mut Job, rows: Pieces) {
    let tail = job.lent.table.split_off(used_table(job));
    job.lent.rows = rows.len() as u64;
    job.lent.table = [rows.concat(), tail].concat();
}

fn book_entries(job: &Job) -> Pieces {
    let mut rest = job.lent.used_book();
    let mut entries = Vec::new();
    while !rest.is_empty() {
        let (entry, behind) = rest.split_at(entry_wide(rest[KIND_AT]).min(rest.len()));
        entries.push(entry.to_vec());
        rest = behind;
    }
    entries
}

fn set_book_entries(job: &mut Job, entries: Pieces) {
    let tail = job.lent.book.split_off(used_book(job));
    let used = entries.concat();
    job.lent.used = used.len() as u64;
    job.lent.book = [used, tail].concat();
}

/// The entries with their messages numbered anew from 1; a withdrawal follows its message.
fn set_messages(job: &mut Job, mut entries: Pieces) {
    let mut numbers: BTreeMap<u32, u32> = BTreeMap::new();
    for entry in &mut entries {
        if entry[KIND_AT] != KIND_PLAN && entry.len() > NUMBER_AT + 4 {
            let place = NUMBER_AT..NUMBER_AT + 4;
            let number = u32::from_be_bytes(entry[place.clone()].try_into().expect("four bytes"));
            let next = numbers.len() as u32 + 1;
            let new = *numbers.entry(number).or_insert(next);
            entry[place].copy_from_slice(&new.to_be_bytes());
        }
    }
    if let Call::Withdraw { number, .. } = &mut job.call {
        *number = numbers.get(number).copied().unwrap_or(*number);
    }
    set_book_entries(job, entries);
}

/// The form that a message states, whole or in parts.
fn form_of(call: &mut Call) -> Option<&mut u32> {
    match call {
        Call::Message { form, .. } => Some(form),
        Call::Feed(feeding) => Some(&mut feeding.form),
        _ => None,
    }
}

fn set_old_form(job: &mut Job) {
    if let Some(form) = form_of(&mut job.call) {
        *form = 0;
    }
}

fn set_fill(job: &mut Job) {
    if let Call::Feed(feeding) = &mut job.call {
        feeding.fill = 0;
    }
}

/// The job with a part and the next one in one, where they are parts; nothing behind the last step.
fn joined_at(job: &Job, at: usize) -> Option<Option<Job>> {
    let Call::Feed(feeding) = &job.call else { return None };
    if at + 1 >= feeding.steps.len() {
        return None;
    }
    let mut joined = job.clone();
    let Call::Feed(feeding) = &mut joined.call else { unreachable!("a feed") };
    let next = feeding.steps[at + 1].clone();
    match (&mut feeding.steps[at], next) {
        (Step::Part { bytes, .. }, Step::Part { bytes: more, .. }) => {
            bytes.extend(more);
            feeding.steps.remove(at + 1);
            Some(Some(joined))
        }
        _ => Some(None),
    }
}

fn places(job: &Job) -> Pieces {
    match &job.call {
        Call::Board { places, .. } => places.iter().map(|place| place.to_be_bytes().to_vec()).collect(),
        _ => Vec::new(),
    }
}

fn set_places(job: &mut Job, left: Pieces) {
    if let Call::Board { places, .. } = &mut job.call {
        *places = left.iter().map(|bytes| u32::from_be_bytes(bytes[..].try_into().expect("four bytes"))).collect();
    }
}
