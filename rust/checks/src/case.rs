//! A call kept in a folder: its numbers in `call.txt`, and a file for each piece of bytes that it is lent.
//!
//! ```text
//! message
//! sender 7
//! form 0
//! used 139
//! rows 1
//! shift 0
//! answer 0 2 0 0 211 1
//! ```
//!
//! with the files `dossier`, `register`, `book` and `table`. The answer is what all sides gave when the case was kept. A feed has a line for
//! each of its steps, as `step-03 1 66`, and files as `step-03-bytes` and `step-03-register`.

use std::collections::BTreeMap;
use std::fs;
use std::io;
use std::path::{Path, PathBuf};

use crate::call::{Call, Job};
use crate::feeding::{Feeding, Step};
use crate::worlds::state::State;

#[derive(Clone, Debug, PartialEq, Eq)]
pub struct Case {
    pub job: Job,
    pub answer: Option<[u64; 6]>,
}

/// The cases that are kept with this crate, each with its folder.
pub fn kept() -> io::Result<Vec<(PathBuf, Case)>> {
    let mut folders: Vec<PathBuf> = Vec::new();
    for entry in fs::read_dir(folder())? {
        let path = entry?.path();
        if path.is_dir() {
            folders.push(path);
        }
    }
    folders.sort();
    folders.into_iter().map(|folder| Case::read(&folder).map(|case| (folder, case))).collect()
}

/// Where cases are kept.
pub fn folder() -> PathBuf {
    Path::new(env!("CARGO_MANIFEST_DIR")).join("cases")
}

impl Case {
    pub fn write(&self, folder: &Path) -> io::Result<()> {
        fs::create_dir_all(folder)?;
        let Job { call, lent, shift, .. } = &self.job;
        let mut text = format!("{}\n", call.kind().name());
        let mut line = |name: &str, values: &[u64]| {
            let values: Vec<String> = values.iter().map(u64::to_string).collect();
            text.push_str(&format!("{name} {}\n", values.join(" ")));
        };
        match call {
            Call::Open { .. } => {}
            Call::Message { sender, form, .. } => {
                line("sender", &[u64::from(*sender)]);
                line("form", &[u64::from(*form)]);
            }
            Call::Feed(feeding) => {
                line("sender", &[u64::from(feeding.sender)]);
                line("form", &[u64::from(feeding.form)]);
                line("fill", &[u64::from(feeding.fill)]);
                for (place, step) in feeding.steps.iter().enumerate() {
                    line(&step_name(place), &step_numbers(step));
                }
            }
            Call::Withdraw { number, sender } => {
                line("number", &[u64::from(*number)]);
                line("sender", &[u64::from(*sender)]);
            }
            Call::Board { date, second, horizon, places, .. } => {
                line("date", &[u64::from(*date)]);
                line("second", &[u64::from(*second)]);
                line("horizon", &[u64::from(*horizon)]);
                line("places", &places.iter().map(|&place| place.into()).collect::<Vec<u64>>());
            }
        }
        line("used", &[lent.used]);
        line("rows", &[lent.rows]);
        line("shift", &[*shift as u64]);
        if let Some(answer) = &self.answer {
            line("answer", answer);
        }
        fs::write(folder.join("call.txt"), text)?;
        for (name, bytes) in pieces(&self.job) {
            fs::write(folder.join(name), bytes)?;
        }
        if let Call::Feed(feeding) = &self.job.call {
            for (place, step) in feeding.steps.iter().enumerate() {
                for (name, bytes) in step_pieces(step) {
                    fs::write(folder.join(format!("{}-{name}", step_name(place))), bytes)?;
                }
            }
        }
        Ok(())
    }

    pub fn read(folder: &Path) -> io::Result<Case> {
        let text = fs::read_to_string(folder.join("call.txt"))?;
        let mut words = Words::of(&text)?;
        let bytes = |name: &str| fs::read(folder.join(name));
        let call = match text.lines().next().unwrap_or("") {
            "open" => Call::Open { planning: bytes("planning")?, calendar: bytes("calendar")? },
            "message" => {
                let (sender, form) = (words.number("sender")? as u8, words.number("form")? as u32);
                Call::Message { dossier: bytes("dossier")?, sender, form, register: bytes("register")? }
            }
            "feed_end" => {
                let (sender, form) = (words.number("sender")? as u8, words.number("form")? as u32);
                let fill = words.number("fill")? as u8;
                let mut steps = Vec::new();
                while let Ok(numbers) = words.take(&step_name(steps.len())) {
                    let name = step_name(steps.len());
                    steps.push(step_of(&numbers, |piece| bytes(&format!("{name}-{piece}")))?);
                }
                Call::Feed(Feeding { sender, form, staging: bytes("staging")?, fill, steps })
            }
            "withdraw" => {
                Call::Withdraw { number: words.number("number")? as u32, sender: words.number("sender")? as u8 }
            }
            "board" => Call::Board {
                owner: bytes("owner")?,
                stop: bytes("stop")?,
                date: words.number("date")? as u32,
                second: words.number("second")? as u32,
                horizon: words.number("horizon")? as u32,
                places: words.take("places")?.iter().map(|&place| place as u32).collect(),
            },
            other => return Err(wrong(format!("no call is named '{other}'"))),
        };
        let book = if matches!(call, Call::Board { .. }) { Vec::new() } else { bytes("book")? };
        let lent = State { book, table: bytes("table")?, used: words.number("used")?, rows: words.number("rows")? };
        let shift = words.number("shift")? as usize;
        let answer = match words.take("answer") {
            Ok(numbers) => Some(numbers.try_into().map_err(|_| wrong("an answer has six numbers".into()))?),
            Err(_) => None,
        };
        words.none_left()?;
        Ok(Case { job: Job { call, lent, keep: false, shift }, answer })
    }
}

/// The bytes that a call is lent, by the names of their files.
fn pieces(job: &Job) -> Vec<(&'static str, &[u8])> {
    let lent = &job.lent;
    let mut pieces: Vec<(&str, &[u8])> = match &job.call {
        Call::Open { planning, calendar } => vec![("planning", planning), ("calendar", calendar)],
        Call::Message { dossier, register, .. } => vec![("dossier", dossier), ("register", register)],
        Call::Feed(feeding) => vec![("staging", &feeding.staging)],
        Call::Withdraw { .. } => Vec::new(),
        Call::Board { owner, stop, .. } => vec![("owner", owner), ("stop", stop)],
    };
    if !matches!(job.call, Call::Board { .. }) {
        pieces.push(("book", &lent.book));
    }
    pieces.push(("table", &lent.table));
    pieces
}

fn step_name(place: usize) -> String {
    format!("step-{place:02}")
}

/// A step's kind, and its numbers.
fn step_numbers(step: &Step) -> Vec<u64> {
    match step {
        Step::Begin => vec![0],
        Step::Part { staging, .. } => vec![1, *staging as u64],
        Step::End { staging, less, .. } => vec![2, *staging as u64, less[0] as u64, less[1] as u64],
        Step::Tamper { at, .. } => vec![3, *at as u64],
        Step::Clear => vec![4],
        Step::Damage { at, add } => vec![5, *at as u64, *add],
    }
}

fn step_pieces(step: &Step) -> Vec<(&'static str, &[u8])> {
    match step {
        Step::Part { bytes, register, .. } => vec![("bytes", bytes), ("register", register)],
        Step::End { register, .. } => vec![("register", register)],
        Step::Tamper { bytes, .. } => vec![("bytes", bytes)],
        Step::Begin | Step::Clear | Step::Damage { .. } => Vec::new(),
    }
}

fn step_of(numbers: &[u64], piece: impl Fn(&str) -> io::Result<Vec<u8>>) -> io::Result<Step> {
    Ok(match *numbers {
        [0] => Step::Begin,
        [1, staging] => Step::Part { bytes: piece("bytes")?, register: piece("register")?, staging: staging as usize },
        [2, staging, book, table] => {
            Step::End { register: piece("register")?, staging: staging as usize, less: [book as usize, table as usize] }
        }
        [3, at] => Step::Tamper { at: at as usize, bytes: piece("bytes")? },
        [4] => Step::Clear,
        [5, at, add] => Step::Damage { at: at as usize, add },
        _ => return Err(wrong(format!("no step has the numbers {numbers:?}"))),
    })
}

/// The lines behind the first: a name, and numbers.
struct Words(BTreeMap<String, Vec<u64>>);

impl Words {
    fn of(text: &str) -> io::Result<Words> {
        let mut lines = BTreeMap::new();
        for line in text.lines().skip(1) {
            let mut words = line.split(' ').filter(|word| !word.is_empty());
            let name = words.next().unwrap_or("").to_string();
            let numbers = words.map(|word| word.parse().map_err(|_| wrong(format!("'{word}' is no number"))));
            lines.insert(name, numbers.collect::<io::Result<_>>()?);
        }
        Ok(Words(lines))
    }

    fn take(&mut self, name: &str) -> io::Result<Vec<u64>> {
        self.0.remove(name).ok_or_else(|| wrong(format!("call.txt has no line '{name}'")))
    }

    fn number(&mut self, name: &str) -> io::Result<u64> {
        match self.take(name)?[..] {
            [number] => Ok(number),
            _ => Err(wrong(format!("'{name}' has one number"))),
        }
    }

    fn none_left(&self) -> io::Result<()> {
        match self.0.keys().next() {
            None => Ok(()),
            Some(name) => Err(wrong(format!("call.txt has a line '{name}' that means nothing here"))),
        }
    }
}

fn wrong(words: String) -> io::Error {
    io::Error::new(io::ErrorKind::InvalidData, words)
}
