//! One call with everything that is lent to it, and what it leaves behind.

use std::cell::RefCell;

use crate::feeding::{Feeding, Seen};
use crate::lend::{Edge, Room};
use crate::sides::Side;
use crate::worlds::state::State;

#[derive(Clone, Debug, PartialEq, Eq)]
pub enum Call {
    Open { planning: Vec<u8>, calendar: Vec<u8> },
    Message { dossier: Vec<u8>, sender: u8, form: u32, register: Vec<u8> },
    Feed(Feeding),
    Withdraw { number: u32, sender: u8 },
    Board { owner: Vec<u8>, stop: Vec<u8>, date: u32, second: u32, horizon: u32, places: Vec<u32> },
}

impl Call {
    /// Which call of the layout it is; of a message in parts, its end.
    pub fn kind(&self) -> layout::Call {
        match self {
            Call::Open { .. } => layout::Call::Open,
            Call::Message { .. } => layout::Call::Message,
            Call::Feed(_) => layout::Call::FeedEnd,
            Call::Withdraw { .. } => layout::Call::Withdraw,
            Call::Board { .. } => layout::Call::Board,
        }
    }

    fn is_board(&self) -> bool {
        self.kind() == layout::Call::Board
    }
}

/// A call, the bytes lent to it, and whether an accepted result is what the run goes on with.
#[derive(Clone, Debug, PartialEq, Eq)]
pub struct Job {
    pub call: Call,
    pub lent: State,
    pub keep: bool,
    /// How lent bytes stand in their memory, 0 to 7: nothing may depend on it.
    pub shift: usize,
}

/// All that can be seen of a call.
#[derive(Clone, PartialEq, Eq)]
pub struct Outcome {
    /// Of a board, which has three numbers, the others are 0. Of a message in parts, that of the last accepted end, or else of the last.
    pub answer: [u64; 6],
    pub book: Vec<u8>,
    pub table: Vec<u8>,
    pub places: Vec<u32>,
    /// Of a message in parts: the staging area, and what was seen of each step.
    pub staging: Vec<u8>,
    pub steps: Vec<Seen>,
    /// What was written that may not be; of a message in parts, all that is wrong by itself.
    pub stray: Option<&'static str>,
}

/// Memory for each piece that a call is lent. The first two are what it only reads: dossiers, parts, register, owner and stop.
#[derive(Default)]
pub(crate) struct Rooms {
    pub first: Room<u8>,
    pub other: Room<u8>,
    pub book: Room<u8>,
    pub table: Room<u8>,
    pub places: Room<u32>,
    pub staging: Room<u8>,
    pub line: Room<u8>,
    pub numbers: Room<u64>,
}

thread_local! {
    static ROOMS: RefCell<Rooms> = RefCell::default();
}

/// Lends fresh copies to one side and looks at all that comes back.
pub fn perform<S: Side>(job: &Job) -> Outcome {
    ROOMS.with_borrow_mut(|rooms| match &job.call {
        Call::Feed(feeding) => rooms.fed_and_compared::<S>(job, feeding),
        _ => {
            let answer = rooms.call::<S>(job);
            rooms.outcome(job, answer)
        }
    })
}

/// Whether a side leaves just what another has left. Nothing is copied to tell.
pub fn agrees<S: Side>(job: &Job, other: &Outcome) -> bool {
    ROOMS.with_borrow_mut(|rooms| {
        if let Call::Feed(feeding) = &job.call {
            return rooms.fed::<S>(job, feeding).outcome == *other;
        }
        let answer = rooms.call::<S>(job);
        let written = match job.call {
            Call::Board { .. } => rooms.places.content() == other.places,
            _ => rooms.book.content() == other.book,
        };
        answer == other.answer && written && rooms.table.content() == other.table && rooms.stray(job) == other.stray
    })
}

impl Rooms {
    fn call<S: Side>(&mut self, job: &Job) -> [u64; 6] {
        let Rooms { first, other, book, table, places, .. } = self;
        let (edge, used, rows) = (Edge::of(job.shift), job.lent.used, job.lent.rows);
        let (book, table) = (book.lend(&job.lent.book, edge), table.lend(&job.lent.table, edge));
        match &job.call {
            Call::Open { planning, calendar } => {
                let (planning, calendar) = (first.lend(planning, edge), other.lend(calendar, edge));
                S::open(planning, calendar, book, table, used, rows)
            }
            Call::Message { dossier, sender, form, register } => {
                let (dossier, register) = (first.lend(dossier, edge), other.lend(register, edge));
                S::message(dossier, *sender, *form, register, book, table, used, rows)
            }
            Call::Feed(_) => unreachable!("a feed is many calls"),
            Call::Withdraw { number, sender } => S::withdraw(*number, *sender, book, table, used, rows),
            Call::Board { owner, stop, date, second, horizon, places: lent } => {
                let (owner, stop) = (first.lend(owner, edge), other.lend(stop, edge));
                let places = places.lend(lent, edge);
                let [number, value, in_all] = S::board(owner, stop, *date, *second, *horizon, table, rows, places);
                [number, value, in_all, 0, 0, 0]
            }
        }
    }

    fn outcome(&mut self, job: &Job, answer: [u64; 6]) -> Outcome {
        let (stray, board) = (self.stray(job), job.call.is_board());
        Outcome {
            answer,
            book: if board { Vec::new() } else { self.book.content().to_vec() },
            table: self.table.content().to_vec(),
            places: if board { self.places.content().to_vec() } else { Vec::new() },
            staging: Vec::new(),
            steps: Vec::new(),
            stray,
        }
    }

    /// What was written beside the lent bytes, or in those that are only read.
    fn stray(&mut self, job: &Job) -> Option<&'static str> {
        let board = job.call.is_board();
        if !(self.book.intact() && self.table.intact()) || board && !self.places.intact() {
            return Some("wrote beside the lent bytes");
        }
        let (first, other): (&[u8], &[u8]) = match &job.call {
            Call::Open { planning, calendar } => (planning, calendar),
            Call::Message { dossier, register, .. } => (dossier, register),
            Call::Feed(_) | Call::Withdraw { .. } => return None,
            Call::Board { owner, stop, .. } => (owner, stop),
        };
        if self.first.content() != first || self.other.content() != other {
            return Some("wrote to bytes that it only reads");
        }
        (!self.first.intact() || !self.other.intact()).then_some("wrote beside the bytes that it only reads")
    }
}

impl Outcome {
    /// What is wrong by itself, whatever another side says: a stray write, or a refusal that changed lent bytes or
    /// counts.
    pub fn complaint(&self, job: &Job) -> Option<&'static str> {
        if self.stray.is_some() || matches!(job.call, Call::Feed(_)) {
            return self.stray;
        }
        let board = job.call.is_board();
        if board && self.table != job.lent.table {
            return Some("a board changed the table");
        }
        if self.answer[0] == 0 {
            return None;
        }
        let counts = if board { [0, 0] } else { [job.lent.used, job.lent.rows] };
        if self.answer[4..] != counts {
            return Some("a refusal changed the counts");
        }
        let same_places = match &job.call {
            Call::Board { places, .. } => *places == self.places,
            _ => self.book == job.lent.book && self.table == job.lent.table,
        };
        (!same_places).then_some("a refusal changed lent bytes")
    }

    /// Each call of the layout that was made, and the number that it gave.
    pub fn numbers(&self, job: &Job) -> Vec<(layout::Call, u64)> {
        match &job.call {
            Call::Feed(feeding) => feeding.numbers(&self.steps),
            call => vec![(call.kind(), self.answer[0])],
        }
    }
}
