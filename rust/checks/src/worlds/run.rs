//! Runs of calls: a day is opened or forged, then messages, withdrawals and boards follow, each
//! given the counts that the last one returned.

use super::calendar::{day_of_number, DAY_SECONDS};
use super::columns::{self, Form, CALENDAR, PLANNING};
use super::damage::{damage, grow, lengthen};
use super::dossier::{dossier, Line};
use super::faults::{spoil, spoil_field};
use super::feeds::{feeding, Told};
use super::passage::*;
use super::perturb::{disagree, unsettle};
use super::plan::Plan;
use super::question::Question;
use super::random::Random;
use super::state::{forged, Measure, State};
use super::world::{Role, World};
use crate::call::{Call, Job, Outcome};

/// Every run has as many calls, so that a call's index tells its run.
pub const CALLS_PER_RUN: u64 = 50;

/// One run in so many has states at the sizes' limits; they cost most of their time in soundness.
const LARGE_EVERY: usize = 30;

/// One run in so many is at busy stops.
const BUSY_EVERY: usize = 4;

pub struct Run {
    random: Random,
    world: World,
    state: State,
    large: bool,
    /// A large run with short fields, so with the most rows in a dossier.
    dense: bool,
    /// A day has been opened or forged.
    ready: bool,
}

impl Run {
    pub fn new(seed: u64, number: u64) -> Run {
        let mut random = Random::new(seed, number);
        let large = random.one_in(LARGE_EVERY);
        let dense = large && random.one_in(2);
        let busy = !large && random.one_in(BUSY_EVERY);
        let world = match () {
            _ if large => World::large(dense, &mut random),
            _ if busy => World::busy(&mut random),
            _ => World::new(random.range(1, 8), &mut random),
        };
        let forge = random.one_in(if large { 2 } else { 4 });
        let state = if forge { forged_day(&world, large, &mut random) } else { State::blank(0, 0, &mut random) };
        Run { random, world, state, large, dense, ready: forge }
    }

    /// The next call, with what is lent to it.
    pub fn next_job(&mut self) -> Job {
        let mut job = match self.random.below(100) {
            _ if !self.ready => self.open(true),
            0..=15 => self.open(false),
            16 => self.open(true),
            17..=34 => self.message(),
            35..=44 => self.feed(),
            45..=55 if !self.world.busy => self.message(),
            56..=59 if !self.world.busy => self.feed(),
            60..=79 if !self.world.busy || self.random.one_in(2) => self.withdraw(),
            _ => self.board(),
        };
        if !matches!(job.call, Call::Open { .. }) {
            self.perturb(&mut job);
        }
        job
    }

    /// Goes on from an accepted result.
    pub fn learn(&mut self, job: Job, outcome: Outcome) {
        if outcome.answer[0] != 0 || !job.keep {
            return;
        }
        self.ready = true;
        let [_, _, _, _, used, rows] = outcome.answer;
        self.state = State { book: outcome.book, table: outcome.table, used, rows };
    }

    fn perturb(&mut self, job: &mut Job) {
        let random = &mut self.random;
        if random.percent(9) {
            for _ in 0..*random.pick(&[1, 1, 1, 2]) {
                unsettle(&mut job.lent, random);
            }
        }
        let share = if matches!(job.call, Call::Withdraw { .. }) { 15 } else { 4 };
        if random.percent(share) {
            disagree(&mut job.lent, &self.world, random);
        }
    }

    fn job(&mut self, call: Call, lent: State, keep: bool) -> Job {
        Job { call, lent, keep, shift: self.random.below(8) }
    }

    // Open

    fn open(&mut self, keep: bool) -> Job {
        let random = &mut self.random;
        let large = self.large && (keep || random.one_in(6));
        let plan = if large { Plan::large(&self.world, self.dense, random) } else { Plan::small(&self.world, random) };
        let planning = finish(&PLANNING, &plan.planning(), 18, random);
        let calendar = finish(&CALENDAR, &plan.calendar(), 14, random);
        let mut lent = if large { plan.lent_most(random) } else { plan.lent(keep, random) };
        lent.used = any_count(random);
        lent.rows = any_count(random);
        self.job(Call::Open { planning, calendar }, lent, keep)
    }

    // Message

    fn message(&mut self) -> Job {
        let Told { dossier, sender, form, register, .. } = self.told();
        let lent = self.state.clone();
        self.job(Call::Message { dossier, sender, form, register }, lent, true)
    }

    /// A message in parts.
    fn feed(&mut self) -> Job {
        let told = self.told();
        let feeding = feeding(told, &self.world, &mut self.random);
        let (lent, keep) = (self.state.clone(), !feeding.damaged());
        self.job(Call::Feed(feeding), lent, keep)
    }

    /// What a message is to say, from whom.
    fn told(&mut self) -> Told {
        let mut passages = self.updates();
        let random = &mut self.random;
        let (form, written) = forms(random);
        if written == 0 {
            passages.iter_mut().for_each(Passage::in_old_form);
        }
        let level = padded(b"L");
        let lines: Vec<Line> = passages.iter().map(|passage| Line { passage, level: &level }).collect();
        let sender = match random.below(40) {
            0 => 0,
            1 => random.byte(),
            _ => *random.pick(&self.world.senders),
        };
        let dossier = finish(columns::message(written), &lines, 32, random);
        Told { dossier, sender, form, register: register(&self.world, sender, random), rows: lines.len() }
    }

    /// The rows of a message: of passages held, of ones already in this message, and of new ones.
    fn updates(&mut self) -> Vec<Passage> {
        let count = match self.random.below(20) {
            0 => 0,
            1..=13 => self.random.range(1, 4),
            _ if self.dense && self.random.one_in(2) => self.random.range(500, 860),
            _ if self.large && self.random.one_in(4) => self.random.range(100, 450),
            _ => self.random.range(4, 12),
        };
        let mut passages: Vec<Passage> = Vec::with_capacity(count);
        for _ in 0..count {
            let key = self.update_key(&passages);
            passages.push(self.world.passage(key, Role::Update, &mut self.random));
        }
        if count > 600 {
            passages.iter_mut().for_each(Passage::shorten);
        }
        passages
    }

    fn update_key(&mut self, earlier: &[Passage]) -> Key {
        let rows = self.state.row_count();
        let random = &mut self.random;
        match random.below(20) {
            0..=2 if !earlier.is_empty() => random.pick(earlier).key.clone(),
            3..=13 if rows > 0 => Key::read(self.state.row(random.below(rows))),
            14 | 15 if rows > 0 => {
                // The same passage but for one part of the key.
                let held = Key::read(self.state.row(random.below(rows)));
                let other = self.world.key(random);
                match random.below(4) {
                    0 => Key { order: other.order, ..held },
                    1 => Key { date: other.date, ..held },
                    2 => Key { fortify: other.fortify, ..held },
                    _ => Key { line: other.line, ..held },
                }
            }
            _ => self.world.key(random),
        }
    }

    // Withdraw

    fn withdraw(&mut self) -> Job {
        let messages = self.state.messages();
        let random = &mut self.random;
        let (number, of_message) = if messages.is_empty() || random.one_in(12) {
            (*random.pick(&[0, messages.len() as u32 + 1, 1, u32::MAX, 1 << 16]), 1)
        } else {
            let standing: Vec<_> = messages.iter().filter(|message| message.2 == KIND_STANDING).collect();
            let known =
                if standing.is_empty() || random.one_in(5) { random.pick(&messages) } else { random.pick(&standing) };
            (known.0, known.1)
        };
        let sender = match random.below(12) {
            0 => *random.pick(&self.world.senders),
            1 => 0,
            2 => random.byte(),
            _ => of_message,
        };
        let lent = self.state.clone();
        self.job(Call::Withdraw { number, sender }, lent, true)
    }

    // Board

    fn board(&mut self) -> Job {
        let mut question = self.question();
        if self.random.one_in(10) {
            question.spoil(&mut self.random);
        }
        let Question { owner, stop, date, second, horizon } = question;
        let lent = State { book: Vec::new(), used: 0, ..self.state.clone() };
        let places = self.places(&owner, &stop);
        self.job(Call::Board { owner, stop, date, second, horizon, places }, lent, false)
    }

    /// A question for which some row's departure stands at or near an end of the horizon.
    fn question(&mut self) -> Question {
        let rows = self.state.row_count();
        let random = &mut self.random;
        let horizons: &[u32] = if self.world.busy {
            &[600, 1_800, 3_600, 3_600, 40_000, 86_400]
        } else {
            &[0, 1, 60, 600, 1_800, 3_600, 40_000, 86_399, 86_400]
        };
        let horizon = *random.pick(horizons);
        if rows == 0 || random.one_in(15) {
            let key = self.world.key(random);
            let now = day_of_number(key.date) * DAY_SECONDS + random.below(86_400) as i64;
            return Question::new(&key, now, horizon);
        }
        let row = self.state.row(likely_shown(&self.state, random));
        let key = Key::read(row);
        let departure = number(&row[DEPARTURE_AT..][..TIME_WIDE]);
        let seconds = if departure == NO_TIME { 0 } else { departure };
        let moment = day_of_number(key.date) * DAY_SECONDS + i64::from(seconds);
        let ahead = i64::from(horizon);
        let before = *random.pick(&[0, ahead, ahead + 1, -1, ahead / 2, ahead / 2, ahead / 3, 1, 86_400]);
        Question::new(&key, moment - before, horizon)
    }

    /// Places for none, some or all of what might be shown, filled with random numbers.
    fn places(&mut self, owner: &[u8], stop: &[u8]) -> Vec<u32> {
        let held = (0..self.state.row_count())
            .filter(|&index| {
                let row = self.state.row(index);
                unpadded(&row[OWNER_AT..][..TEXT_WIDE]) == owner && unpadded(&row[STOP_AT..][..TEXT_WIDE]) == stop
            })
            .count();
        let random = &mut self.random;
        let length = match random.below(8) {
            0 => 0,
            1 => 1,
            2 => held,
            3 => held.saturating_sub(1),
            4 => random.below(held + 1),
            5 => held + 1,
            _ => held + random.below(20),
        };
        (0..length).map(|_| random.draw() as u32).collect()
    }
}

/// A row of the table that, if a few tries find one, a board could show.
fn likely_shown(state: &State, random: &mut Random) -> usize {
    let count = state.row_count();
    let mut index = random.below(count);
    for _ in 0..4 {
        let row = state.row(index);
        let (status, stop_type, flexible) = (row[STATUS_AT], row[STOP_TYPE_AT], row[FLEXIBLE_AT]);
        if status != PASSED && stop_type != LAST && flexible != 2 {
            break;
        }
        index = random.below(count);
    }
    index
}

/// A sound state that no call has made.
fn forged_day(world: &World, large: bool, random: &mut Random) -> State {
    if large {
        // With a multiple of 72 plan entries, updates can fill the book to its last byte.
        let plans = *random.pick(&[0, 72, 1_008, 1_008, 2_016, 2_016, 2_048, 2_100, 4_400]);
        // Some books and tables are sound but for being larger than the sizes allow.
        let book_bytes = BOOK + 300 - *random.pick(&[0, 300, 300, 372, 372, 444, 444, 516, 516, 800, 5_300]);
        let rows = ROWS + 1 - *random.pick(&[0, 1, 1, 1, 2, 3, 20, 300, 300]);
        let mut state = forged(world, &Measure { plans, book_bytes, rows }, random);
        if !random.one_in(3) {
            let more = random.below(400);
            state.relend_book(state.book.len().max(BOOK + more), random);
            state.relend_table(state.table.len().max(ROWS * ROW + more), random);
        }
        return state;
    }
    let most = if world.busy { 12 } else { *random.pick(&[1, 2, 3, 12]) };
    let plans = random.below(most + 1);
    let book_bytes = plans * PLAN_WIDE + UPDATE_WIDE * random.below(4 * most);
    let measure = Measure { plans, book_bytes, rows: random.below(2 * most + 1) };
    let mut state = forged(world, &measure, random);
    if random.one_in(2) {
        state.relend_book(state.book.len() + random.below(20_000), random);
        state.relend_table(state.table.len() + random.below(4_000), random);
    }
    state
}

/// The form that a message states, and the one that it is written in: mostly the same. Among those that are not known are such as are 0 or 1
/// in their lowest bytes.
fn forms(random: &mut Random) -> (u32, u32) {
    const UNKNOWN: [u32; 10] = [2, 2, 3, 255, 256, 257, 65_536, 1 << 24 | 1, 1 << 31, u32::MAX];
    let written = random.below(2) as u32;
    match random.below(24) {
        0 => (*random.pick(&UNKNOWN), written),
        1 => (1 - written, written),
        _ => (written, written),
    }
}

/// Any number may stand as a count where it is only given back.
fn any_count(random: &mut Random) -> u64 {
    match random.below(4) {
        0 => u64::MAX,
        1 => random.draw(),
        _ => random.below(300_000) as u64,
    }
}

/// Writes a dossier out; `share` of a hundred get faults or damage of some kind.
fn finish(form: &Form, lines: &[Line], share: usize, random: &mut Random) -> Vec<u8> {
    let mut dossier = dossier(form, lines, random);
    let fault = if random.percent(share) { random.below(10) } else { 10 };
    match fault {
        0..=3 => spoil(&mut dossier, form, random),
        4 => (0..3).for_each(|_| spoil(&mut dossier, form, random)),
        5 | 6 => spoil_field(&mut dossier, random),
        _ => {}
    }
    let mut bytes = dossier.bytes();
    if matches!(fault, 6..=9) {
        damage(&mut bytes, random);
    }
    if random.one_in(60) {
        lengthen(&mut bytes, random);
    }
    if random.one_in(400) {
        grow(&mut bytes, random);
    }
    bytes
}

/// A register that grants the sender all owners, but for some faults.
fn register(world: &World, sender: u8, random: &mut Random) -> Vec<u8> {
    let mut pairs: Vec<(u8, Text)> = world.owners.iter().map(|&owner| (sender, owner)).collect();
    match random.below(24) {
        0 => drop(pairs.remove(random.below(pairs.len()))),
        1 => pairs.iter_mut().for_each(|pair| pair.0 = pair.0.wrapping_add(1)),
        2 => {
            let which = random.below(pairs.len());
            pairs[which].1[9] = *random.pick(&[0, b' ', b'x', 1]);
        }
        _ => {}
    }
    let most = if random.one_in(20) { 64 } else { pairs.len() + random.below(3) };
    while pairs.len() < most {
        let owner = padded(random.pick::<&[u8]>(&[b"CXX", b"", b"GVB", b"\xff"]));
        pairs.insert(random.below(pairs.len() + 1), (random.byte(), owner));
    }
    let mut bytes = Vec::with_capacity(REGISTER);
    for (sender, owner) in pairs {
        bytes.push(sender);
        bytes.extend_from_slice(&owner);
    }
    if random.one_in(60) {
        let length = *random.pick(&[
            bytes.len().saturating_sub(1),
            bytes.len() + 1,
            0,
            REGISTER - 1,
            REGISTER,
            REGISTER + 1,
            REGISTER + PAIR,
            1,
        ]);
        bytes.resize(length, 0);
    }
    bytes
}
