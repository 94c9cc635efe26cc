//! A message in parts as one job: what is done with a feed, step by step, and all that can be seen of it.

use layout::{BODY_WIDE, FEED, LINE, UPDATE_WIDE};

use crate::call::{Call, Job, Outcome, Rooms};
use crate::lend::Edge;
use crate::sides::Side;

/// A feed, and what happens to it.
#[derive(Clone, Debug, PartialEq, Eq)]
pub struct Feeding {
    pub sender: u8,
    pub form: u32,
    /// The whole staging area, as it is before.
    pub staging: Vec<u8>,
    /// What stands before in every byte of the line and of the numbers.
    pub fill: u8,
    pub steps: Vec<Step>,
}

#[derive(Clone, Debug, PartialEq, Eq)]
pub enum Step {
    Begin,
    /// A part; of the staging area so many bytes are lent.
    Part {
        bytes: Vec<u8>,
        register: Vec<u8>,
        staging: usize,
    },
    /// An end; of the staging area so many bytes are lent, and of book and table so many less than there are.
    End {
        register: Vec<u8>,
        staging: usize,
        less: [usize; 2],
    },
    /// Somebody else writes into the staging area.
    Tamper {
        at: usize,
        bytes: Vec<u8>,
    },
    /// Somebody else makes all numbers zero.
    Clear,
    /// Somebody else adds to one of the numbers, or behind the last of them to a byte of the line. Only for sides that take any.
    Damage {
        at: usize,
        add: u64,
    },
}

/// What was seen of a step.
#[derive(Clone, Debug, Default, PartialEq, Eq)]
pub struct Seen {
    /// Of a beginning or a part, the number alone; of what is no call, zeros.
    pub answer: [u64; 6],
    /// Where a part changed the staging area first, and the bytes from there to the last that it changed.
    pub at: usize,
    pub written: Vec<u8>,
}

/// An untouched feed: what the one call would be given.
struct Whole {
    dossier: Vec<u8>,
    register: Vec<u8>,
    staging: usize,
    less: [usize; 2],
    /// Which step is its end, and whether it is the last that can change the day.
    end: usize,
    last: bool,
    parts: usize,
}

impl Feeding {
    /// A feed in the old form that is begun, fed these parts and ended, with the same register and so many bytes of the staging area lent to all calls.
    pub fn of(sender: u8, parts: &[&[u8]], register: &[u8], staging: usize) -> Feeding {
        let part = |bytes: &&[u8]| Step::Part { bytes: bytes.to_vec(), register: register.to_vec(), staging };
        let mut steps = vec![Step::Begin];
        steps.extend(parts.iter().map(part));
        steps.push(Step::End { register: register.to_vec(), staging, less: [0, 0] });
        Feeding { sender, form: 0, staging: vec![0xcc; staging], fill: 0xee, steps }
    }

    /// The same in another form.
    pub fn in_form(self, form: u32) -> Feeding {
        Feeding { form, ..self }
    }

    /// Somebody has changed numbers or line.
    pub fn damaged(&self) -> bool {
        self.steps.iter().any(|step| matches!(step, Step::Damage { .. }))
    }

    /// Each call of the layout that was made, and the number that it gave.
    pub fn numbers(&self, seen: &[Seen]) -> Vec<(layout::Call, u64)> {
        let numbers = self.steps.iter().zip(seen).filter_map(|(step, seen)| match step {
            Step::Begin => Some((layout::Call::FeedBegin, seen.answer[0])),
            Step::Part { .. } => Some((layout::Call::Feed, seen.answer[0])),
            Step::End { .. } => Some((layout::Call::FeedEnd, seen.answer[0])),
            Step::Tamper { .. } | Step::Clear | Step::Damage { .. } => None,
        });
        numbers.collect()
    }

    /// What the one call would be given, where the feed is begun once, no part is lent another register or another length of the staging
    /// area than the end, and nobody writes between them.
    fn whole(&self) -> Option<Whole> {
        let mut steps = self.steps.iter();
        if steps.next() != Some(&Step::Begin) {
            return None;
        }
        let end = self.steps.iter().position(|step| matches!(step, Step::End { .. }))?;
        let Step::End { register, staging, less } = &self.steps[end] else { unreachable!("an end") };
        let mut dossier = Vec::new();
        for step in &self.steps[1..end] {
            match step {
                Step::Part { bytes, register: lent, staging: room } if lent == register && room == staging => {
                    dossier.extend(bytes);
                }
                _ => return None,
            }
        }
        let last = !self.steps[end..].contains(&Step::Begin);
        Some(Whole { dossier, register: register.clone(), staging: *staging, less: *less, end, last, parts: end - 1 })
    }
}

/// What lies in memory between two steps.
#[derive(Clone)]
struct Memory {
    staging: Vec<u8>,
    line: Vec<u8>,
    numbers: Vec<u64>,
    book: Vec<u8>,
    table: Vec<u8>,
    counts: [u64; 2],
}

/// What came of a feed, with its memory as it was before its first end.
pub(crate) struct Fed {
    pub outcome: Outcome,
    before_end: Option<(Vec<u8>, Vec<u8>, Vec<u64>)>,
}

fn numbers_of(lent: &mut [u64]) -> &mut [u64; FEED] {
    lent.try_into().expect("48 numbers")
}

fn line_of(lent: &mut [u8]) -> &mut [u8; LINE] {
    lent.try_into().expect("4,096 bytes")
}

/// The first and the last byte that differ, and what stands there now.
fn changed(before: &[u8], now: &[u8]) -> (usize, Vec<u8>) {
    let differs = |(one, other): (&u8, &u8)| one != other;
    match before.iter().zip(now).position(differs) {
        None => (0, Vec::new()),
        Some(first) => {
            let last = before.iter().zip(now).rposition(differs).unwrap_or(first);
            (first, now[first..=last].to_vec())
        }
    }
}

impl Rooms {
    /// A feed step by step; and, where it is untouched, held against the one call of the same side.
    pub(crate) fn fed_and_compared<S: Side>(&mut self, job: &Job, feeding: &Feeding) -> Outcome {
        let fed = self.fed::<S>(job, feeding);
        let mut outcome = fed.outcome;
        if let Some(whole) = feeding.whole().filter(|_| outcome.stray.is_none()) {
            outcome.stray = self.unlike_one_call::<S>(job, &whole, &outcome);
            if S::TAKES_ANY_FEED && whole.parts > 0 && outcome.stray.is_none() {
                let before_end = fed.before_end.expect("it has an end");
                outcome.stray = other_line(&whole, &outcome, &before_end.1);
                outcome.stray = outcome.stray.or_else(|| unlike_one_part::<S>(feeding, &whole, before_end));
            }
        }
        outcome
    }

    pub(crate) fn fed<S: Side>(&mut self, job: &Job, feeding: &Feeding) -> Fed {
        let edge = Edge::of(job.shift);
        let lent = &job.lent;
        let mut memory = Memory {
            staging: feeding.staging.clone(),
            line: vec![feeding.fill; LINE],
            numbers: vec![u64::from_ne_bytes([feeding.fill; 8]); FEED],
            book: lent.book.clone(),
            table: lent.table.clone(),
            counts: [lent.used, lent.rows],
        };
        let mut answer = [0, 0, 0, 0, lent.used, lent.rows];
        let (mut accepted, mut before_end, mut stray) = (false, None, None);
        let mut steps = Vec::with_capacity(feeding.steps.len());
        for step in &feeding.steps {
            if matches!(step, Step::End { .. }) && before_end.is_none() {
                before_end = Some((memory.staging.clone(), memory.line.clone(), memory.numbers.clone()));
            }
            let (seen, wrong) = self.step::<S>(edge, feeding, step, &mut memory);
            if matches!(step, Step::End { .. }) && (seen.answer[0] == 0 || !accepted) {
                answer = seen.answer;
                accepted = answer[0] == 0;
            }
            stray = stray.or(wrong);
            steps.push(seen);
        }
        let Memory { staging, book, table, .. } = memory;
        Fed { outcome: Outcome { answer, book, table, places: Vec::new(), staging, steps, stray }, before_end }
    }

    fn step<S: Side>(
        &mut self,
        edge: Edge,
        feeding: &Feeding,
        step: &Step,
        memory: &mut Memory,
    ) -> (Seen, Option<&'static str>) {
        match step {
            Step::Begin => {
                let numbers = numbers_of(self.numbers.lend(&memory.numbers, edge));
                let number = S::feed_begin(feeding.sender, feeding.form, numbers);
                memory.numbers.copy_from_slice(self.numbers.content());
                let stray = match number {
                    0 if self.numbers.intact() => None,
                    0 => Some("wrote beside the lent bytes"),
                    _ => Some("a feed is not begun"),
                };
                (Seen { answer: [number.into(), 0, 0, 0, 0, 0], ..Seen::default() }, stray)
            }
            Step::Part { bytes, register, staging } => self.part::<S>(edge, (bytes, register, *staging), memory),
            Step::End { register, staging, less } => self.end::<S>(edge, (register, *staging, *less), feeding, memory),
            Step::Tamper { at, bytes } => {
                let from = (*at).min(memory.staging.len());
                let to = (at + bytes.len()).min(memory.staging.len()).max(from);
                memory.staging[from..to].copy_from_slice(&bytes[..to - from]);
                (Seen::default(), None)
            }
            Step::Clear => {
                memory.numbers.fill(0);
                (Seen::default(), None)
            }
            Step::Damage { at, add } if S::TAKES_ANY_FEED => {
                match memory.numbers.get_mut(*at) {
                    Some(number) => *number = number.wrapping_add(*add),
                    None => {
                        let byte = &mut memory.line[(at - FEED) % LINE];
                        *byte = byte.wrapping_add(*add as u8);
                    }
                }
                (Seen::default(), None)
            }
            Step::Damage { .. } => (Seen::default(), None),
        }
    }

    fn part<S: Side>(
        &mut self,
        edge: Edge,
        (bytes, register, staging): (&[u8], &[u8], usize),
        memory: &mut Memory,
    ) -> (Seen, Option<&'static str>) {
        let lent = staging.min(memory.staging.len());
        let number = S::feed(
            self.first.lend(bytes, edge),
            self.other.lend(register, edge),
            self.staging.lend(&memory.staging[..lent], edge),
            line_of(self.line.lend(&memory.line, edge)),
            numbers_of(self.numbers.lend(&memory.numbers, edge)),
        );
        let (at, written) = changed(&memory.staging[..lent], self.staging.content());
        let same = written.is_empty() && self.line.content() == memory.line && self.numbers.content() == memory.numbers;
        let mut stray = match number {
            0 => None,
            1 => (!same).then_some("a refused part changed lent memory"),
            _ => Some("a part is answered with neither 0 nor 1"),
        };
        if !(self.staging.intact() && self.line.intact() && self.numbers.intact()) {
            stray = Some("wrote beside the lent bytes");
        }
        if !(self.first.intact() && self.other.intact()) {
            stray = Some("wrote beside the bytes that it only reads");
        }
        if self.first.content() != bytes || self.other.content() != register {
            stray = Some("wrote to bytes that it only reads");
        }
        memory.staging[..lent].copy_from_slice(self.staging.content());
        memory.line.copy_from_slice(self.line.content());
        memory.numbers.copy_from_slice(self.numbers.content());
        (Seen { answer: [number.into(), 0, 0, 0, 0, 0], at, written }, stray)
    }

    fn end<S: Side>(
        &mut self,
        edge: Edge,
        (register, staging, less): (&[u8], usize, [usize; 2]),
        feeding: &Feeding,
        memory: &mut Memory,
    ) -> (Seen, Option<&'static str>) {
        let lent = staging.min(memory.staging.len());
        let (book, table) = (memory.book.len().saturating_sub(less[0]), memory.table.len().saturating_sub(less[1]));
        let [used, rows] = memory.counts;
        let answer = S::feed_end(
            self.other.lend(register, edge),
            self.staging.lend(&memory.staging[..lent], edge),
            self.book.lend(&memory.book[..book], edge),
            self.table.lend(&memory.table[..table], edge),
            used,
            rows,
            numbers_of(self.numbers.lend(&memory.numbers, edge)),
        );
        let mut stray = None;
        if answer[0] == 0 {
            memory.book[..book].copy_from_slice(self.book.content());
            memory.table[..table].copy_from_slice(self.table.content());
            memory.counts = [answer[4], answer[5]];
            memory.numbers.copy_from_slice(self.numbers.content());
            if memory.numbers.iter().any(|&number| number != 0) {
                stray = Some("an accepted end leaves numbers that are not zero");
            }
            if feeding.damaged() && !is_sound::<S>(memory) {
                stray = Some("an accepted end leaves an unsound day");
            }
        } else {
            let same = self.book.content() == &memory.book[..book] && self.table.content() == &memory.table[..table];
            if !same || answer[4..] != memory.counts {
                stray = Some("a refused end changed the day");
            }
            if self.numbers.content() != memory.numbers {
                stray = Some("a refused end changed the feed");
            }
        }
        if !(self.book.intact() && self.table.intact() && self.numbers.intact()) {
            stray = Some("wrote beside the lent bytes");
        }
        if !(self.other.intact() && self.staging.intact()) {
            stray = Some("wrote beside the bytes that it only reads");
        }
        if self.other.content() != register || self.staging.content() != &memory.staging[..lent] {
            stray = Some("wrote to bytes that it only reads");
        }
        (Seen { answer, ..Seen::default() }, stray)
    }

    /// 7.6: whatever the cuts, an untouched feed's answer, book and table are those of the one call; but for 14, which is given exactly
    /// where the staging area is too short for all rows.
    fn unlike_one_call<S: Side>(&mut self, job: &Job, whole: &Whole, outcome: &Outcome) -> Option<&'static str> {
        let Job { lent, shift, .. } = job;
        let Call::Feed(Feeding { sender, form, .. }) = &job.call else { unreachable!("a feed") };
        let (mut book, mut table) = (lent.book.clone(), lent.table.clone());
        book.truncate(lent.book.len().saturating_sub(whole.less[0]));
        table.truncate(lent.table.len().saturating_sub(whole.less[1]));
        let edge = Edge::of(*shift);
        let (dossier, register) = (self.first.lend(&whole.dossier, edge), self.other.lend(&whole.register, edge));
        let one = S::message(dossier, *sender, *form, register, &mut book, &mut table, lent.used, lent.rows);
        let ended = outcome.steps[whole.end].answer;
        let room = whole.staging.min(outcome.staging.len()) / BODY_WIDE;
        if matches!(one[0], 0 | 7 | 8) {
            let rows = match one[0] {
                0 => Some((one[4] - lent.used) as usize / UPDATE_WIDE),
                _ => rows_of::<S>(dossier, *sender, *form, register),
            };
            if rows.is_some_and(|rows| (rows > room) != (ended[0] == 14)) {
                return Some("14 goes by something else than the rows of the dossier");
            }
            if ended[0] == 14 {
                return None;
            }
        }
        if ended != one {
            return Some("the end's answer is not that of the one call");
        }
        let same =
            ended[0] != 0 || !whole.last || outcome.book[..book.len()] == book && outcome.table[..table.len()] == table;
        (!same).then_some("the end leaves another day than the one call")
    }
}

/// A feed's memory is the same to the byte however the dossier was cut.
fn unlike_one_part<S: Side>(
    feeding: &Feeding,
    whole: &Whole,
    (staging, line, numbers): (Vec<u8>, Vec<u8>, Vec<u64>),
) -> Option<&'static str> {
    let (mut own_staging, mut own_line, mut own_numbers) = (feeding.staging.clone(), [0; LINE], [0; FEED]);
    let lent = whole.staging.min(own_staging.len());
    S::feed_begin(feeding.sender, feeding.form, &mut own_numbers);
    S::feed(&whole.dossier, &whole.register, &mut own_staging[..lent], &mut own_line, &mut own_numbers);
    let same = own_staging == staging && own_line[..] == line && own_numbers[..] == numbers;
    (!same).then_some("a feed's memory depends on the cuts")
}

/// The line has the bytes of the line that is cut, and zeros behind them: where the end tells that no fault of syntax lies within the bytes
/// that came, and the line is not too long by then.
fn other_line(whole: &Whole, outcome: &Outcome, line: &[u8]) -> Option<&'static str> {
    let answer = outcome.steps[whole.end].answer;
    let faulty = matches!(answer[0], 1 | 2 | 18) || answer[0] == 3 && answer[1] != whole.dossier.len() as u64;
    let begins = whole.dossier.iter().rposition(|&byte| byte == b'\n').map_or(0, |at| at + 1);
    let cut = &whole.dossier[begins..];
    if faulty || cut.len() > LINE {
        return None;
    }
    let same = line.starts_with(cut) && line[cut.len()..].iter().all(|&byte| byte == 0);
    (!same).then_some("the line has other bytes than those of the line that is cut")
}

/// Whether a withdrawal takes book and table for sound.
fn is_sound<S: Side>(memory: &Memory) -> bool {
    let [used, rows] = memory.counts;
    S::withdraw(0, 0, &mut memory.book.clone(), &mut memory.table.clone(), used, rows)[0] == 10
}

/// How many rows a dossier has, where a day with all room takes it.
fn rows_of<S: Side>(dossier: &[u8], sender: u8, form: u32, register: &[u8]) -> Option<usize> {
    let (mut book, mut table) = (vec![0; layout::BOOK], vec![0; layout::TABLE]);
    let answer = S::message(dossier, sender, form, register, &mut book, &mut table, 0, 0);
    (answer[0] == 0).then_some(answer[4] as usize / UPDATE_WIDE)
}
