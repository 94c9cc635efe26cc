use crate::{Date, Row, Table};

/// What a board is asked: which passages leave a stop from a moment on, up to a horizon.
#[derive(Clone, Copy, Debug, PartialEq, Eq)]
pub struct Question<'asked> {
    /// The owner of the stop's code, 1 to 10 bytes.
    pub owner: &'asked [u8],
    /// The stop, 1 to 10 bytes.
    pub stop: &'asked [u8],
    /// The date on the clock.
    pub date: Date,
    /// The second of the date, 0 to 86,399.
    pub second: u32,
    /// How many seconds ahead, 0 to 86,400.
    pub horizon: u32,
}

impl<'asked> Question<'asked> {
    /// From a second of a date on, up to a horizon in seconds.
    pub fn new(owner: &'asked str, stop: &'asked str, date: Date, second: u32, horizon: u32) -> Question<'asked> {
        Question { owner: owner.as_bytes(), stop: stop.as_bytes(), date, second, horizon }
    }
}

/// The rows that a board lists, by departure, then key. It borrows the day: after the next message, withdrawal or
/// opening another is to be asked for.
#[derive(Clone, Copy)]
pub struct Board<'day, P = Vec<u32>> {
    pub(crate) table: Table<'day>,
    pub(crate) places: P,
    pub(crate) written: usize,
    pub(crate) shown: usize,
}

impl<'day, P: AsRef<[u32]>> Board<'day, P> {
    /// How many rows are listed.
    pub fn len(&self) -> usize {
        self.written
    }

    /// Whether no row is listed.
    pub fn is_empty(&self) -> bool {
        self.written == 0
    }

    /// How many passages are shown in all: more than are listed where places were wanting.
    pub fn shown(&self) -> usize {
        self.shown
    }

    /// The rows listed, in the board's order.
    pub fn rows(&self) -> impl Iterator<Item = Row<'day>> + '_ {
        self.places().iter().filter_map(|&place| self.table.row(place as usize))
    }

    /// The places of the rows in the table, from 0, in the board's order.
    pub fn places(&self) -> &[u32] {
        &self.places.as_ref()[..self.written]
    }
}
