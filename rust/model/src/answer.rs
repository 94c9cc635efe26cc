//! What comes back from a call (7.1, 9.1).

/// Why a call was refused, with what is given besides.
#[derive(Clone, Copy, Debug, PartialEq, Eq)]
pub enum Refusal {
    Unsound,
    TooLong,
    Syntax { offset: usize },
    Form { line: usize },
    Field { line: usize, column: usize },
    NotRegistered { line: usize },
    BookShort,
    TableShort,
    KeyTwice,
    NoMessage,
    AlreadyWithdrawn,
    OtherSender,
    OutOfRange,
    StagingShort,
    LineLong { line: usize },
    UnknownForm,
}

impl Refusal {
    /// The table of 7.1: a refusal's number, and the two values besides.
    pub fn numbers(self) -> [u64; 3] {
        match self {
            Refusal::Unsound => [1, 0, 0],
            Refusal::TooLong => [2, 0, 0],
            Refusal::Syntax { offset } => [3, offset as u64, 0],
            Refusal::Form { line } => [4, line as u64, 0],
            Refusal::Field { line, column } => [5, line as u64, column as u64],
            Refusal::NotRegistered { line } => [6, line as u64, 0],
            Refusal::BookShort => [7, 0, 0],
            Refusal::TableShort => [8, 0, 0],
            Refusal::KeyTwice => [9, 0, 0],
            Refusal::NoMessage => [10, 0, 0],
            Refusal::AlreadyWithdrawn => [11, 0, 0],
            Refusal::OtherSender => [12, 0, 0],
            Refusal::OutOfRange => [13, 0, 0],
            Refusal::StagingShort => [14, 0, 0],
            Refusal::LineLong { line } => [15, line as u64, 0],
            Refusal::UnknownForm => [18, 0, 0],
        }
    }
}

/// What an accepted call on the day gives: its value (a message's number, else 0) and the new counts.
#[derive(Clone, Copy, Debug, PartialEq, Eq)]
pub struct Accepted {
    pub value: u32,
    pub used: usize,
    pub rows: usize,
}

/// 9.1: the six numbers of a call on the day. A refusal gives back the counts that were passed, and open which dossier it is about.
pub fn numbers_of_day(outcome: Result<Accepted, (Refusal, u64)>, used: u64, rows: u64) -> [u64; 6] {
    match outcome {
        Ok(accepted) => [0, u64::from(accepted.value), 0, 0, accepted.used as u64, accepted.rows as u64],
        Err((refusal, dossier)) => {
            let [number, value, second] = refusal.numbers();
            [number, value, second, dossier, used, rows]
        }
    }
}
