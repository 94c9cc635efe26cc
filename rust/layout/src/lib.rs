//! What stands where: rows of a table, entries of a book, numbers of an answer, sizes; and the refusals with their
//! words. All as data, under the names of `include/desk.h` without their `DESK_`, and with no code that decides
//! anything.
//!
//! [`NAMED`] lists every constant, [`FIELDS`] the fields of a row, [`REFUSALS`] the refusals in the order in which they
//! are looked for, and [`CALLS`] the calls.
#![forbid(unsafe_code)]
#![warn(missing_docs)]

mod fields;
mod refusals;

pub use fields::{body_field, entry_wide, field_in_book, field_in_row, Content, Field, FIELDS};
pub use refusals::{numbers_of, refusal, Call, Places, RefusalForm, CALLS, REFUSALS};

/// Constants, and a list of them for those who compare it with another.
macro_rules! constants {
    ($($(#[$doc:meta])* $name:ident: $kind:ty = $value:expr;)*) => {
        $($(#[$doc])* pub const $name: $kind = $value;)*

        /// Each constant here by its name.
        pub const NAMED: &[(&str, u64)] = &[$((stringify!($name), $name as u64)),*];
    };
}

constants! {
    /// Of the C face that these numbers belong to.
    VERSION: u32 = 4;

    /// Where an answer has its number: 0 where the call was accepted, else why it was refused.
    ANSWER_NUMBER: usize = 0;
    /// Where an answer has the first value that belongs to its number.
    ANSWER_VALUE: usize = 1;
    /// Where an answer has the second value.
    ANSWER_SECOND: usize = 2;
    /// Where the answer of an opening says which dossier was refused: 1 the planning, 2 the calendar.
    ANSWER_DOSSIER: usize = 3;
    /// Where an answer has the used bytes of the book.
    ANSWER_USED: usize = 4;
    /// Where an answer has the rows of the table.
    ANSWER_ROWS: usize = 5;
    /// How many numbers the answer of a call on the day has.
    ANSWER: usize = 6;
    /// How many numbers a board's answer has.
    BOARD_ANSWER: usize = 3;

    /// The number of an acceptance.
    ACCEPTED: u32 = 0;

    /// Bytes of a book: 4,096 updates, or 4,401 planned passages.
    BOOK: usize = 294_912;
    /// Rows of a table.
    ROWS: usize = 2_048;
    /// Bytes of a row.
    ROW: usize = 67;
    /// Bytes of a table.
    TABLE: usize = ROWS * ROW;
    /// Bytes of a pair of the register: a sender, then its owner padded with zeros.
    PAIR: usize = 11;
    /// Bytes of a register at most.
    REGISTER: usize = 64 * PAIR;
    /// Bytes of a dossier at most.
    DOSSIER: usize = 65_536;
    /// Bytes of a line of a dossier at most, its CR LF among them; and of the lent line of a feed.
    LINE: usize = 4_096;
    /// Bytes of a staging area that has room for the rows of any dossier, [`BODY_WIDE`] bytes each.
    STAGING: usize = 2_427 * 66;
    /// Numbers of a feed.
    FEED: usize = 48;

    /// The desk as a sender: it sends no rows, and withdraws anybody's message.
    SENDER: u8 = 0;

    /// The form of a message: the old one.
    OLD_FORM: u32 = 0;
    /// The form of turbo 8.5: ShowCancelledJourney (`true`, `false`, `message`) in place of ShowCancelledTrip, and Monitored
    /// as `true` or `false`.
    NEW_FORM: u32 = 1;

    /// Where a row has its owner, a text.
    OWNER_AT: usize = 0;
    /// Where a row has the date of its operating day.
    DATE_AT: usize = 10;
    /// Where a row has its line, a text.
    LINE_AT: usize = 14;
    /// Where a row has the number of its journey.
    JOURNEY_AT: usize = 24;
    /// Where a row has its fortify number, a byte.
    FORTIFY_AT: usize = 28;
    /// Where a row has its stop, a text.
    STOP_AT: usize = 29;
    /// Where a row has the stop's order number.
    ORDER_AT: usize = 39;
    /// Where a row has its destination, a text.
    DESTINATION_AT: usize = 41;
    /// Where a row has the timestamp of the last update: 0 where nothing has been heard.
    TIMESTAMP_AT: usize = 51;
    /// Where a row has its status, a byte.
    STATUS_AT: usize = 55;
    /// Where a row has its time of arrival.
    ARRIVAL_AT: usize = 56;
    /// Where a row has its time of departure.
    DEPARTURE_AT: usize = 59;
    /// Where a row has its stop type, a byte.
    STOP_TYPE_AT: usize = 62;
    /// Where a row says whether it is shown when cancelled, a byte.
    SHOW_CANCELLED_AT: usize = 63;
    /// Where a row says whether a flexible trip is shown, a byte.
    FLEXIBLE_AT: usize = 64;
    /// Where a row says whether it is monitored, 0 or 1.
    MONITORED_AT: usize = 65;
    /// Where a row says whether a standing message has told of it, 0 or 1.
    HEARD_AT: usize = 66;

    /// Bytes of a key, which a row begins with.
    KEY_WIDE: usize = 41;
    /// Bytes of a body, which a row begins with and an entry of the book has too.
    BODY_WIDE: usize = 66;
    /// Bytes of a text, padded with zeros.
    TEXT_WIDE: usize = 10;
    /// Bytes of a date, the number YYYYMMDD.
    DATE_WIDE: usize = 4;
    /// Bytes of a journey's number.
    JOURNEY_WIDE: usize = 4;
    /// Bytes of an order number.
    ORDER_WIDE: usize = 2;
    /// Bytes of a timestamp, seconds since 1970-01-01 UTC.
    TIMESTAMP_WIDE: usize = 4;
    /// Bytes of a time, seconds of the operating day up to 115,199.
    TIME_WIDE: usize = 3;

    /// A time that is missing: an arrival at the first stop, a departure at the last.
    NO_TIME: u32 = 16_777_215;

    /// The statuses.
    PLANNED: u8 = 0;
    #[allow(missing_docs)]
    CANCEL: u8 = 1;
    #[allow(missing_docs)]
    UNKNOWN: u8 = 2;
    #[allow(missing_docs)]
    DRIVING: u8 = 3;
    #[allow(missing_docs)]
    ARRIVED: u8 = 4;
    #[allow(missing_docs)]
    PASSED: u8 = 5;

    /// The stop types.
    FIRST: u8 = 0;
    #[allow(missing_docs)]
    INTERMEDIATE: u8 = 1;
    #[allow(missing_docs)]
    LAST: u8 = 2;

    /// Whether a cancelled passage is shown: it is not.
    CANCELLED_FALSE: u8 = 0;
    /// It is.
    CANCELLED_TRUE: u8 = 1;
    /// It is not, but a message is sent beside it.
    CANCELLED_MESSAGE: u8 = 2;

    /// Whether a flexible trip is shown: not said, so that it is.
    FLEXIBLE_NOT_SAID: u8 = 0;
    /// Always shown.
    FLEXIBLE_TRUE: u8 = 1;
    /// Never shown.
    FLEXIBLE_FALSE: u8 = 2;
    /// Shown where it is monitored.
    FLEXIBLE_REALTIME: u8 = 3;

    /// Where an entry of the book has its kind, a byte.
    KIND_AT: usize = 0;
    /// An entry of the plan.
    KIND_PLAN: u8 = 1;
    /// An update that counts.
    KIND_STANDING: u8 = 2;
    /// An update that was withdrawn.
    KIND_WITHDRAWN: u8 = 3;
    /// Where an entry of the plan has its body.
    PLAN_BODY_AT: usize = 1;
    /// Bytes of an entry of the plan.
    PLAN_WIDE: usize = 67;
    /// Where an update has its message's number, in four bytes.
    NUMBER_AT: usize = 1;
    /// Where an update has its sender, a byte.
    SENDER_AT: usize = 5;
    /// Where an update has its body.
    UPDATE_BODY_AT: usize = 6;
    /// Bytes of an update.
    UPDATE_WIDE: usize = 72;
    /// In an update's show cancelled, flexible or monitored: the row keeps what it has.
    KEPT: u8 = 255;
}

/// The words of the statuses, by their bytes.
pub const STATUS_WORDS: [&str; 6] = ["PLANNED", "CANCEL", "UNKNOWN", "DRIVING", "ARRIVED", "PASSED"];
/// The words of the stop types, by their bytes.
pub const STOP_TYPE_WORDS: [&str; 3] = ["FIRST", "INTERMEDIATE", "LAST"];
/// The words of what is said of cancelled passages, by their bytes, as the 8.5 form has them.
pub const CANCELLED_WORDS: [&str; 3] = ["false", "true", "message"];
/// The words of what is said of flexible trips, by their bytes.
pub const FLEXIBLE_WORDS: [&str; 4] = ["not said", "TRUE", "FALSE", "REALTIME"];
