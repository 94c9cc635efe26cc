//! What sides do not agree on, down to the first byte.

use std::cell::Cell;
use std::panic::{catch_unwind, AssertUnwindSafe};

use layout::{field_in_book, field_in_row};

use crate::call::{Call, Job, Outcome};
use crate::feeding::{Feeding, Step};
use crate::sides::Judge;

/// A side's name and what it made of a job: an outcome, or the words of a panic.
pub type Seen = (&'static str, Result<Outcome, String>);

/// The judges that a job is for. Where numbers or line of a feed were changed, these are the sides that take any; if there are none, the
/// first, to which nothing is changed.
fn judges_of(job: &Job, judges: &[Judge]) -> Vec<Judge> {
    let damaged = matches!(&job.call, Call::Feed(feeding) if feeding.damaged());
    if !damaged {
        return judges.to_vec();
    }
    let taking: Vec<Judge> = judges.iter().filter(|judge| judge.takes_any_feed).copied().collect();
    if taking.is_empty() {
        judges[..1].to_vec()
    } else {
        taking
    }
}

/// Gives the job to each judge that it is for.
pub fn see(job: &Job, judges: &[Judge]) -> Vec<Seen> {
    judges_of(job, judges).iter().map(|judge| (judge.name, attempt(|| (judge.perform)(job)))).collect()
}

/// What the first judge leaves, where nothing is wrong with it and all others leave the same; else what is wrong.
pub fn agreed(job: &Job, judges: &[Judge]) -> Result<Outcome, String> {
    let judges = &judges_of(job, judges)[..];
    let first = attempt(|| (judges[0].perform)(job));
    if let Ok(outcome) = &first {
        let same = |judge: &Judge| attempt(|| (judge.agrees)(job, outcome)) == Ok(true);
        if outcome.complaint(job).is_none() && judges[1..].iter().all(same) {
            return first;
        }
    }
    Err(difference(job, &see(job, judges)).unwrap_or("a side does not do the same again".to_string()))
}

thread_local! {
    static TRYING: Cell<bool> = const { Cell::new(false) };
}

/// Whether this thread is in a side's call: a panic is caught then and told of as a difference.
pub fn trying() -> bool {
    TRYING.get()
}

fn attempt<T>(call: impl FnOnce() -> T) -> Result<T, String> {
    TRYING.set(true);
    let tried = catch_unwind(AssertUnwindSafe(call));
    TRYING.set(false);
    tried.map_err(|panic| {
        let words = panic.downcast_ref::<String>().map(String::as_str);
        words.or(panic.downcast_ref::<&str>().copied()).unwrap_or("without a word").to_string()
    })
}

/// The first thing that is wrong with what was seen, in words: a side by itself, or one that differs from the first.
pub fn difference(job: &Job, seen: &[Seen]) -> Option<String> {
    let call = job.call.kind().name();
    let alone = seen.iter().find_map(|(name, outcome)| match outcome {
        Err(panic) => Some(format!("{call}: {name} panicked: {panic}")),
        Ok(outcome) => outcome.complaint(job).map(|complaint| format!("{call}: {name}: {complaint}")),
    });
    alone.or_else(|| {
        let mut outcomes = seen.iter().filter_map(|(name, outcome)| Some((*name, outcome.as_ref().ok()?)));
        let first = outcomes.next()?;
        outcomes.find_map(|other| between(job, first, other)).map(|words| format!("{call}: {words}"))
    })
}

/// What two sides do not agree on.
fn between(job: &Job, one: (&str, &Outcome), other: (&str, &Outcome)) -> Option<String> {
    const NAMES: [&str; 6] = ["number", "value", "second value", "dossier", "used", "rows"];
    let ((name, ours), (other_name, theirs)) = (one, other);
    if ours == theirs {
        return None;
    }
    let told =
        |what: String, ours: u64, theirs: u64| Some(format!("{what}: {ours} by {name}, {theirs} by {other_name}"));
    if let (Call::Feed(feeding), Some(step)) = (&job.call, first_different(&ours.steps, &theirs.steps)) {
        let (what, ours, theirs) = step_seen(feeding, step, ours, theirs);
        return Some(format!("{what}: {ours} by {name}, {theirs} by {other_name}"));
    }
    if let Some(place) = first_different(&ours.answer, &theirs.answer) {
        let what = format!("answers {:?} and {:?} differ in their {}", ours.answer, theirs.answer, NAMES[place]);
        return told(what, ours.answer[place], theirs.answer[place]);
    }
    if let Some(byte) = first_different(&ours.book, &theirs.book) {
        let what = book_byte(job, ours, byte);
        return told(what, ours.book[byte].into(), theirs.book[byte].into());
    }
    if let Some(byte) = first_different(&ours.table, &theirs.table) {
        let what = table_byte(job, ours, byte);
        return told(what, ours.table[byte].into(), theirs.table[byte].into());
    }
    if let Some(place) = first_different(&ours.places, &theirs.places) {
        let what = format!("places differ first at place {place} of the board");
        return told(what, ours.places[place].into(), theirs.places[place].into());
    }
    Some(format!("{name} and {other_name} leave different lengths"))
}

/// What two sides do not agree on in a step of a feed, by its place among the steps.
fn step_seen(feeding: &Feeding, step: usize, ours: &Outcome, theirs: &Outcome) -> (String, String, String) {
    let what = match feeding.steps[step] {
        Step::Begin => "a beginning",
        Step::Part { .. } => "a part",
        Step::End { .. } => "an end",
        Step::Tamper { .. } | Step::Clear | Step::Damage { .. } => "no call",
    };
    let (ours, theirs) = (&ours.steps[step], &theirs.steps[step]);
    if ours.answer != theirs.answer {
        let what = format!("step {step}, {what}, is answered with");
        return (what, format!("{:?}", ours.answer), format!("{:?}", theirs.answer));
    }
    let told = |at: usize, written: &[u8]| match written {
        [] => "nothing".to_string(),
        _ => format!("bytes {at} to {} (rows from {})", at + written.len() - 1, at / layout::BODY_WIDE),
    };
    let what = format!("step {step}, {what}, writes into the staging area");
    (what, told(ours.at, &ours.written), told(theirs.at, &theirs.written))
}

fn first_different<T: PartialEq>(one: &[T], other: &[T]) -> Option<usize> {
    one.iter().zip(other).position(|(one, other)| one != other)
}

fn book_byte(job: &Job, outcome: &Outcome, byte: usize) -> String {
    let used = outcome.answer[4].max(job.lent.used);
    let whose = match field_in_book(&outcome.book, byte) {
        Some((entry, field)) if (byte as u64) < used => format!("entry {entry}, its {}", field.name),
        _ => "behind the used bytes".to_string(),
    };
    format!("books differ first at byte {byte} ({whose})")
}

fn table_byte(job: &Job, outcome: &Outcome, byte: usize) -> String {
    let (row, field) = field_in_row(byte);
    let used = outcome.answer[5].max(job.lent.rows);
    let behind = if row as u64 >= used { ", behind the rows" } else { "" };
    format!("tables differ first at byte {byte} (row {row}, its {}{behind})", field.name)
}
