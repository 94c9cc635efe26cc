use std::fmt;

use layout::{ANSWER, ANSWER_ROWS, ANSWER_SECOND, ANSWER_USED, ANSWER_VALUE, BOARD_ANSWER, BOOK, ROW, ROWS};

use crate::{Board, Form, Kept, Question, Refusal, Register, Sender, Table};

/// Bytes that a day, or a feed's rows, may live in: a `Vec<u8>` that is owned, or `&mut [u8]` that is borrowed.
pub trait Bytes: AsRef<[u8]> + AsMut<[u8]> {}

impl<B: AsRef<[u8]> + AsMut<[u8]>> Bytes for B {}

/// A day in operation: its book, its table, and how much of either is used.
///
/// The counts are the day's own. No call takes them and none gives them, so that those of one day, or of an earlier
/// state of this one, cannot be passed for them. See the [crate] for an example.
#[derive(Clone)]
pub struct Day<B = Vec<u8>> {
    book: B,
    table: B,
    counts: Counts,
}

/// How much of a book and a table is used, to keep beside their bytes when a day is saved.
#[derive(Clone, Copy, Debug, Default, PartialEq, Eq)]
pub struct Counts {
    /// Bytes of the book.
    pub used: u64,
    /// Rows of the table.
    pub rows: u64,
}

/// The number of an accepted message, by which it is withdrawn: from 1 on, in the order of acceptance.
#[derive(Clone, Copy, Debug, PartialEq, Eq, PartialOrd, Ord, Hash)]
pub struct MessageNumber(pub u32);

impl fmt::Display for MessageNumber {
    fn fmt(&self, f: &mut fmt::Formatter) -> fmt::Result {
        self.0.fmt(f)
    }
}

impl Day {
    /// A day with all the room that there can be, and nothing in it.
    pub fn new() -> Day {
        Day::with_room(BOOK, ROWS)
    }

    /// A day with room for so many bytes in its book and so many rows in its table.
    pub fn with_room(book_bytes: usize, rows: usize) -> Day {
        Day::lent(vec![0; book_bytes], vec![0; rows * ROW])
    }
}

impl Default for Day {
    fn default() -> Day {
        Day::new()
    }
}

impl<B: Bytes> Day<B> {
    /// A day with nothing in it, in these bytes, whose contents are not read. What is not used of them keeps its
    /// contents.
    ///
    /// ```
    /// # use zhemdurak::{layout, Day};
    /// let (mut book, mut table) = (vec![0; 7_200], vec![0; 100 * layout::ROW]);
    /// let mut day = Day::lent(&mut book[..], &mut table[..]);
    /// day.open(b"\\G\r\n", b"\\G\r\n")?;
    /// assert_eq!(day.counts().rows, 0);
    /// # Ok::<(), zhemdurak::Refusal>(())
    /// ```
    pub fn lent(book: B, table: B) -> Day<B> {
        Day::resumed(book, table, Counts::default())
    }

    /// A day that was kept: its bytes, and the counts that it had. Nothing is checked here; the next call refuses what
    /// it cannot work with as [unsound](Refusal::Unsound).
    ///
    /// ```
    /// # use zhemdurak::Day;
    /// let mut day = Day::new();
    /// day.open(b"\\G\r\n", b"\\G\r\n")?;
    /// let (book, table, counts) = day.into_parts();
    /// let mut day = Day::resumed(book, table, counts);
    /// assert!(day.table()?.is_empty());
    /// # Ok::<(), zhemdurak::Refusal>(())
    /// ```
    pub fn resumed(book: B, table: B, counts: Counts) -> Day<B> {
        Day { book, table, counts }
    }

    /// Book, table and counts, to keep.
    pub fn into_parts(self) -> (B, B, Counts) {
        (self.book, self.table, self.counts)
    }

    /// How much is used.
    pub fn counts(&self) -> Counts {
        self.counts
    }

    /// The whole book, used or not.
    pub fn book_bytes(&self) -> &[u8] {
        self.book.as_ref()
    }

    /// The whole table, used or not.
    pub fn table_bytes(&self) -> &[u8] {
        self.table.as_ref()
    }

    /// A planning and a calendar become the plan, and whatever the day had before is gone. Message numbers begin at 1.
    pub fn open(&mut self, planning: &[u8], calendar: &[u8]) -> Result<(), Refusal> {
        let Counts { used, rows } = self.counts;
        let answer = raw::open(planning, calendar, self.book.as_mut(), self.table.as_mut(), used, rows);
        self.keep(answer).map(drop)
    }

    /// A message, in the form that is stated, is taken whole or refused whole. Its number is what [`Day::withdraw`] takes; a message without rows is
    /// accepted, changes nothing and has none. One that comes in parts is a [`Feed`](crate::Feed).
    pub fn message(
        &mut self,
        dossier: &[u8],
        sender: Sender,
        form: Form,
        register: &Register,
    ) -> Result<Option<MessageNumber>, Refusal> {
        let Counts { used, rows } = self.counts;
        let (book, table) = (self.book.as_mut(), self.table.as_mut());
        let answer = raw::message(dossier, sender.0, form.0, register.as_bytes(), book, table, used, rows);
        self.taken(answer)
    }

    /// The end of a feed: the rows that wait are taken.
    pub(crate) fn take_staged(
        &mut self,
        kept: &mut Kept,
        staging: &[u8],
        register: &Register,
    ) -> Result<Option<MessageNumber>, Refusal> {
        let Counts { used, rows } = self.counts;
        let (book, table) = (self.book.as_mut(), self.table.as_mut());
        let answer = raw::feed_end(register.as_bytes(), staging, book, table, used, rows, &mut kept.numbers);
        self.taken(answer)
    }

    /// The number of a message that was taken.
    fn taken(&mut self, answer: [u64; ANSWER]) -> Result<Option<MessageNumber>, Refusal> {
        let number = self.keep(answer)? as u32;
        Ok((number != 0).then_some(MessageNumber(number)))
    }

    /// A message is withdrawn, as if it had never been, for its own sender or for the [desk](Sender::DESK). Its room in
    /// the book does not come back.
    pub fn withdraw(&mut self, number: MessageNumber, sender: Sender) -> Result<(), Refusal> {
        let Counts { used, rows } = self.counts;
        let answer = raw::withdraw(number.0, sender.0, self.book.as_mut(), self.table.as_mut(), used, rows);
        self.keep(answer).map(drop)
    }

    /// The board of a stop, with every passage that is shown.
    pub fn board(&self, question: &Question) -> Result<Board<'_>, Refusal> {
        let rows = self.table_bytes().len() / ROW;
        self.board_of(question, vec![0; rows.min(ROWS).min(self.counts.rows as usize)])
    }

    /// The board of a stop, in places that are lent: as many passages as there are places.
    pub fn board_in<'lent>(
        &self,
        question: &Question,
        places: &'lent mut [u32],
    ) -> Result<Board<'_, &'lent mut [u32]>, Refusal> {
        self.board_of(question, places)
    }

    fn board_of<P: AsRef<[u32]> + AsMut<[u32]>>(
        &self,
        question: &Question,
        mut places: P,
    ) -> Result<Board<'_, P>, Refusal> {
        let Question { owner, stop, date, second, horizon } = *question;
        let (table, lent) = (self.table_bytes(), places.as_mut());
        let answer = raw::board(owner, stop, date.0, second, horizon, table, self.counts.rows, lent);
        let [written, shown] = asked(answer)?;
        Ok(Board { table: self.sound_table(), places, written, shown })
    }

    /// The rows of the table, by key, if it is sound.
    pub fn table(&self) -> Result<Table<'_>, Refusal> {
        // A board asks whether the table is sound before it looks at the question.
        match asked(raw::board(b"", b"", 0, 0, 0, self.table_bytes(), self.counts.rows, &mut [])) {
            Err(Refusal::Unsound) => Err(Refusal::Unsound),
            _ => Ok(self.sound_table()),
        }
    }

    /// The used rows, which a call has just found sound.
    fn sound_table(&self) -> Table<'_> {
        Table::sound(&self.table_bytes()[..self.counts.rows as usize * ROW])
    }

    /// The counts of the answer become the day's; the answer's value, or its refusal, is handed on.
    fn keep(&mut self, answer: [u64; ANSWER]) -> Result<u64, Refusal> {
        self.counts = Counts { used: answer[ANSWER_USED], rows: answer[ANSWER_ROWS] };
        Refusal::of(answer).map_or(Ok(answer[ANSWER_VALUE]), Err)
    }
}

/// The two values of a question's answer, or its refusal.
fn asked(answer: [u64; BOARD_ANSWER]) -> Result<[usize; 2], Refusal> {
    let [number, value, second] = answer;
    match Refusal::of([number, value, second, 0, 0, 0]) {
        Some(refusal) => Err(refusal),
        None => Ok([answer[ANSWER_VALUE] as usize, answer[ANSWER_SECOND] as usize]),
    }
}

impl<B: Bytes> fmt::Debug for Day<B> {
    fn fmt(&self, f: &mut fmt::Formatter) -> fmt::Result {
        f.debug_struct("Day").field("counts", &self.counts).finish_non_exhaustive()
    }
}
