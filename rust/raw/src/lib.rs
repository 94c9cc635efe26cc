//! The C calls of `include/desk.h`, each a function over slices. The crate `zhemdurak` stands on these; whoever keeps
//! book, table and counts by other means may use them by themselves.
//!
//! An answer of a call on the day has six numbers, a board's the first three of them: [`layout::ANSWER_NUMBER`] and what
//! follows it say which. The counts of an answer go to the next call. Any bytes and any numbers may be passed: a call
//! refuses what it cannot take, and a refused call leaves every byte as it was. The beginning and the parts of a feed
//! have no answer but its number.
#![warn(missing_docs)]
#![deny(unsafe_op_in_unsafe_fn)]

use layout::{ANSWER, ANSWER_NUMBER, BOARD_ANSWER, FEED, LINE};

extern "C" {
    fn desk_open(
        planning: *const u8,
        planning_len: usize,
        calendar: *const u8,
        calendar_len: usize,
        book: *mut u8,
        book_len: usize,
        table: *mut u8,
        table_len: usize,
        used: u64,
        rows: u64,
        answer: *mut u64,
    ) -> u32;
    fn desk_message(
        dossier: *const u8,
        dossier_len: usize,
        sender: u8,
        form: u32,
        register: *const u8,
        register_len: usize,
        book: *mut u8,
        book_len: usize,
        table: *mut u8,
        table_len: usize,
        used: u64,
        rows: u64,
        answer: *mut u64,
    ) -> u32;
    fn desk_feed_begin(sender: u8, form: u32, feed: *mut u64) -> u32;
    fn desk_feed(
        part: *const u8,
        part_len: usize,
        register: *const u8,
        register_len: usize,
        staging: *mut u8,
        staging_len: usize,
        line: *mut u8,
        feed: *mut u64,
    ) -> u32;
    fn desk_feed_end(
        register: *const u8,
        register_len: usize,
        staging: *const u8,
        staging_len: usize,
        book: *mut u8,
        book_len: usize,
        table: *mut u8,
        table_len: usize,
        used: u64,
        rows: u64,
        feed: *mut u64,
        answer: *mut u64,
    ) -> u32;
    fn desk_withdraw(
        number: u32,
        sender: u8,
        book: *mut u8,
        book_len: usize,
        table: *mut u8,
        table_len: usize,
        used: u64,
        rows: u64,
        answer: *mut u64,
    ) -> u32;
    fn desk_board(
        owner: *const u8,
        owner_len: usize,
        stop: *const u8,
        stop_len: usize,
        date: u32,
        second: u32,
        horizon: u32,
        table: *const u8,
        table_len: usize,
        rows: u64,
        places: *mut u32,
        places_len: usize,
        answer: *mut u64,
    ) -> u32;
}

/// Opens a day: joins pass times and validities into a new book and table, whose old contents are not read.
pub fn open(
    planning: &[u8],
    calendar: &[u8],
    book: &mut [u8],
    table: &mut [u8],
    used: u64,
    rows: u64,
) -> [u64; ANSWER] {
    let mut answer = [0; ANSWER];
    // SAFETY: every pointer comes with its own slice's length, `answer` has its six numbers, no two mutable slices
    // overlap, and the library keeps none of them.
    let number = unsafe {
        desk_open(
            planning.as_ptr(),
            planning.len(),
            calendar.as_ptr(),
            calendar.len(),
            book.as_mut_ptr(),
            book.len(),
            table.as_mut_ptr(),
            table.len(),
            used,
            rows,
            answer.as_mut_ptr(),
        )
    };
    checked(number, answer)
}

/// Takes a message's rows, read in the form that is stated, into book and table.
#[allow(clippy::too_many_arguments)]
pub fn message(
    dossier: &[u8],
    sender: u8,
    form: u32,
    register: &[u8],
    book: &mut [u8],
    table: &mut [u8],
    used: u64,
    rows: u64,
) -> [u64; ANSWER] {
    let mut answer = [0; ANSWER];
    // SAFETY: as for `open`.
    let number = unsafe {
        desk_message(
            dossier.as_ptr(),
            dossier.len(),
            sender,
            form,
            register.as_ptr(),
            register.len(),
            book.as_mut_ptr(),
            book.len(),
            table.as_mut_ptr(),
            table.len(),
            used,
            rows,
            answer.as_mut_ptr(),
        )
    };
    checked(number, answer)
}

/// Begins a feed: a message from this sender and in this form, in parts. Writes all numbers of the feed, and is 0, whatever
/// the form: one that is not known is refused at the end.
pub fn feed_begin(sender: u8, form: u32, feed: &mut [u64; FEED]) -> u32 {
    // SAFETY: `feed` has its numbers, and the library does not keep it.
    unsafe { desk_feed_begin(sender, form, feed.as_mut_ptr()) }
}

/// Takes the next part of a message: 0, or 1 where the numbers are those of no begun feed, and then nothing is changed.
/// Rows wait in `staging`, and a line that is cut in `line`. Both, and the feed, are lent again to the calls that follow.
pub fn feed(part: &[u8], register: &[u8], staging: &mut [u8], line: &mut [u8; LINE], feed: &mut [u64; FEED]) -> u32 {
    // SAFETY: as for `open`, but that there is no answer; `line` and `feed` have their fixed lengths.
    unsafe {
        desk_feed(
            part.as_ptr(),
            part.len(),
            register.as_ptr(),
            register.len(),
            staging.as_mut_ptr(),
            staging.len(),
            line.as_mut_ptr(),
            feed.as_mut_ptr(),
        )
    }
}

/// Ends a feed: takes the rows that wait into book and table, as [`message`] does. Accepted, the feed is all zeros; refused,
/// it is as it was and may be ended again.
pub fn feed_end(
    register: &[u8],
    staging: &[u8],
    book: &mut [u8],
    table: &mut [u8],
    used: u64,
    rows: u64,
    feed: &mut [u64; FEED],
) -> [u64; ANSWER] {
    let mut answer = [0; ANSWER];
    // SAFETY: as for `open`; `feed` has its numbers, and the staging area is only read.
    let number = unsafe {
        desk_feed_end(
            register.as_ptr(),
            register.len(),
            staging.as_ptr(),
            staging.len(),
            book.as_mut_ptr(),
            book.len(),
            table.as_mut_ptr(),
            table.len(),
            used,
            rows,
            feed.as_mut_ptr(),
            answer.as_mut_ptr(),
        )
    };
    checked(number, answer)
}

/// Withdraws a message and works its passages out again.
pub fn withdraw(number: u32, sender: u8, book: &mut [u8], table: &mut [u8], used: u64, rows: u64) -> [u64; ANSWER] {
    let mut answer = [0; ANSWER];
    // SAFETY: as for `open`.
    let number = unsafe {
        desk_withdraw(
            number,
            sender,
            book.as_mut_ptr(),
            book.len(),
            table.as_mut_ptr(),
            table.len(),
            used,
            rows,
            answer.as_mut_ptr(),
        )
    };
    checked(number, answer)
}

/// Writes the places of the rows that a board shows, in the board's order.
#[allow(clippy::too_many_arguments)]
pub fn board(
    owner: &[u8],
    stop: &[u8],
    date: u32,
    second: u32,
    horizon: u32,
    table: &[u8],
    rows: u64,
    places: &mut [u32],
) -> [u64; BOARD_ANSWER] {
    let mut answer = [0; BOARD_ANSWER];
    // SAFETY: as for `open`, but that `answer` has three numbers; `places` is counted in 32-bit numbers, and the table
    // is only read.
    let number = unsafe {
        desk_board(
            owner.as_ptr(),
            owner.len(),
            stop.as_ptr(),
            stop.len(),
            date,
            second,
            horizon,
            table.as_ptr(),
            table.len(),
            rows,
            places.as_mut_ptr(),
            places.len(),
            answer.as_mut_ptr(),
        )
    };
    checked(number, answer)
}

/// The number comes back twice; a face that says two things is broken, so it is not passed on.
fn checked<const N: usize>(number: u32, answer: [u64; N]) -> [u64; N] {
    assert_eq!(u64::from(number), answer[ANSWER_NUMBER], "the returned number and the answer's differ");
    answer
}
