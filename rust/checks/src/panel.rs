//! All sides at one table: each call goes to every one of them, and they must agree on all that can be seen.

use crate::call::{Call, Job, Outcome};
use crate::difference::{difference, see};
use crate::feeding::Feeding;
use crate::sides::{Judge, JUDGES};
use crate::worlds::state::State;

/// A check by its name.
pub type Check = (&'static str, fn(&Panel));

/// The checks of a module's parts as a list, each as `part::check`.
macro_rules! listed {
    ($($part:ident: $($check:ident),*;)*) => {
        pub const CHECKS: &[$crate::panel::Check] =
            &[$($((concat!(stringify!($part), "::", stringify!($check)), $part::$check)),*),*];
    };
}
pub(crate) use listed;

/// Runs the checks of a part against all sides, and says which of them it runs.
pub fn run_part(checks: &[Check], part: &str) {
    let panel = Panel::all();
    let of_part: Vec<&Check> = checks.iter().filter(|(name, _)| name.starts_with(part)).collect();
    assert!(!of_part.is_empty(), "no check of {part}");
    for (name, check) in of_part {
        println!("{name}");
        check(&panel);
    }
}

/// The sides that a check is run against.
pub struct Panel {
    judges: Vec<Judge>,
}

impl Panel {
    pub fn of(judges: &[Judge]) -> Panel {
        Panel { judges: judges.to_vec() }
    }

    /// Every side.
    pub fn all() -> Panel {
        Panel::of(JUDGES)
    }

    /// What every side leaves of a call.
    pub fn ask(&self, job: &Job) -> Outcome {
        let mut seen = see(job, &self.judges);
        if let Some(words) = difference(job, &seen) {
            panic!("{words}");
        }
        seen.swap_remove(0).1.expect("a panic is a difference")
    }
}

/// A day before a panel: it goes on with what an accepted call leaves.
#[derive(Clone)]
pub struct Day<'a> {
    panel: &'a Panel,
    pub state: State,
    calls: usize,
}

impl<'a> Day<'a> {
    /// Nothing used yet of so many lent bytes.
    pub fn new(panel: &'a Panel, book: usize, table: usize) -> Day<'a> {
        Day::of(panel, State { book: vec![0xaa; book], table: vec![0xbb; table], used: 0, rows: 0 })
    }

    pub fn of(panel: &'a Panel, state: State) -> Day<'a> {
        Day { panel, state, calls: 0 }
    }

    /// A call on the day. Lent bytes stand at another distance from an even address each time.
    pub fn ask(&mut self, call: Call) -> Outcome {
        let board = matches!(call, Call::Board { .. });
        let job = Job { call, lent: self.state.clone(), keep: true, shift: self.calls % 8 };
        let outcome = self.panel.ask(&job);
        self.calls += 1;
        if outcome.answer[0] == 0 && !board {
            let [.., used, rows] = outcome.answer;
            self.state = State { book: outcome.book.clone(), table: outcome.table.clone(), used, rows };
        }
        outcome
    }

    pub fn open(&mut self, planning: Vec<u8>, calendar: Vec<u8>) -> [u64; 6] {
        self.ask(Call::Open { planning, calendar }).answer
    }

    /// A message in the old form.
    pub fn message(&mut self, dossier: Vec<u8>, sender: u8, register: &[u8]) -> [u64; 6] {
        self.message_in(0, dossier, sender, register)
    }

    pub fn message_in(&mut self, form: u32, dossier: Vec<u8>, sender: u8, register: &[u8]) -> [u64; 6] {
        self.ask(Call::Message { dossier, sender, form, register: register.to_vec() }).answer
    }

    /// A message in parts. Its answer is that of the last accepted end, or else of the last.
    pub fn feed(&mut self, feeding: Feeding) -> Outcome {
        self.ask(Call::Feed(feeding))
    }

    pub fn withdraw(&mut self, number: u32, sender: u8) -> [u64; 6] {
        self.ask(Call::Withdraw { number, sender }).answer
    }

    /// The places that a board writes of so many lent, and its three numbers.
    pub fn board(&mut self, question: &Question, lent: usize) -> (Vec<u32>, [u64; 3]) {
        let places = vec![0xcccc_cccc; lent];
        let Question { owner, stop, date, second, horizon } = *question;
        let (owner, stop) = (owner.to_vec(), stop.to_vec());
        let outcome = self.ask(Call::Board { owner, stop, date, second, horizon, places });
        let [number, written, shown, ..] = outcome.answer;
        assert!(outcome.places[written as usize..].iter().all(|&place| place == 0xcccc_cccc), "later places stay");
        (outcome.places[..written as usize].to_vec(), [number, written, shown])
    }
}

/// What a board is asked.
#[derive(Clone, Copy, Debug)]
pub struct Question<'a> {
    pub owner: &'a [u8],
    pub stop: &'a [u8],
    pub date: u32,
    pub second: u32,
    pub horizon: u32,
}
