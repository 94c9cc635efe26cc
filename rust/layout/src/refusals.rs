//! The refusals, and the calls that give them.

/// A call of the library.
#[derive(Clone, Copy, Debug, PartialEq, Eq, Hash, PartialOrd, Ord)]
pub enum Call {
    #[allow(missing_docs)]
    Open,
    #[allow(missing_docs)]
    Message,
    /// The beginning of a message in parts.
    FeedBegin,
    /// A part of a message in parts.
    Feed,
    /// The end of a message in parts.
    FeedEnd,
    #[allow(missing_docs)]
    Withdraw,
    #[allow(missing_docs)]
    Board,
}

/// Every call with its name.
pub const CALLS: [(Call, &str); 7] = [
    (Call::Open, "open"),
    (Call::Message, "message"),
    (Call::FeedBegin, "feed_begin"),
    (Call::Feed, "feed"),
    (Call::FeedEnd, "feed_end"),
    (Call::Withdraw, "withdraw"),
    (Call::Board, "board"),
];

impl Call {
    /// The call's name.
    pub fn name(self) -> &'static str {
        CALLS[self as usize].1
    }
}

/// Which values a refusal has.
#[derive(Clone, Copy, Debug, PartialEq, Eq)]
pub enum Places {
    /// None.
    None,
    /// The value is a byte offset into the dossier, from 0.
    Offset,
    /// The value is a line of the dossier, from 1. At the end of a message in parts it may be 0: the sender was
    /// registered when the line was read, and is not now.
    Line,
    /// The value is a line, the second value a column of it, both from 1.
    LineAndColumn,
}

/// A refusal: its number, its name in C without `DESK_`, its words, its values, and the calls that give it.
#[derive(Clone, Copy, Debug, PartialEq, Eq)]
pub struct RefusalForm {
    #[allow(missing_docs)]
    pub number: u32,
    #[allow(missing_docs)]
    pub name: &'static str,
    #[allow(missing_docs)]
    pub words: &'static str,
    #[allow(missing_docs)]
    pub places: Places,
    #[allow(missing_docs)]
    pub calls: &'static [Call],
    /// An opening tells which of its two dossiers it is about.
    pub of_dossier: bool,
}

const ON_THE_DAY: &[Call] = &[Call::Open, Call::Message, Call::FeedEnd, Call::Withdraw];
const READING: &[Call] = &[Call::Open, Call::Message, Call::FeedEnd];
const ON_WHAT_IS_LENT: &[Call] = &[Call::Message, Call::Feed, Call::FeedEnd, Call::Withdraw, Call::Board];
const TAKING: &[Call] = &[Call::Message, Call::FeedEnd];

const fn form(
    number: u32,
    name: &'static str,
    places: Places,
    calls: &'static [Call],
    words: &'static str,
) -> RefusalForm {
    RefusalForm { number, name, words, places, calls, of_dossier: false }
}

const fn of_dossier(form: RefusalForm) -> RefusalForm {
    RefusalForm { of_dossier: true, ..form }
}

/// The refusals in the order in which they are looked for: where several hold, the first is given.
pub const REFUSALS: &[RefusalForm] = &[
    form(
        1,
        "UNSOUND",
        Places::None,
        ON_WHAT_IS_LENT,
        "counts, book, table, register, feed or staged rows cannot be worked with",
    ),
    form(18, "UNKNOWN_FORM", Places::None, TAKING, "the form is none that is known"),
    of_dossier(form(2, "TOO_LONG", Places::None, READING, "a dossier has more than 65,536 bytes")),
    of_dossier(form(3, "SYNTAX", Places::Offset, READING, "a dossier is not well formed")),
    of_dossier(form(15, "LINE_LONG", Places::Line, READING, "a line has more than 4,096 bytes")),
    of_dossier(form(
        4,
        "FORM",
        Places::Line,
        READING,
        "a wanted column stands twice or is missing, or a line has another number of fields than its label line",
    )),
    of_dossier(form(5, "FIELD", Places::LineAndColumn, READING, "a wanted field is outside its type")),
    form(6, "NOT_REGISTERED", Places::Line, TAKING, "the sender is not registered for a row's owner"),
    form(14, "STAGING_SHORT", Places::None, &[Call::FeedEnd], "there is no room in the staging area"),
    form(7, "BOOK_SHORT", Places::None, READING, "there is no room in the book"),
    form(9, "KEY_TWICE", Places::None, &[Call::Open], "a passage is planned twice"),
    form(10, "NO_MESSAGE", Places::None, &[Call::Withdraw], "no message has the number"),
    form(12, "OTHER_SENDER", Places::None, &[Call::Withdraw], "the sender is neither the message's nor the desk"),
    form(11, "ALREADY_WITHDRAWN", Places::None, &[Call::Withdraw], "the message has been withdrawn already"),
    form(8, "TABLE_SHORT", Places::None, ON_THE_DAY, "there is no room in the table"),
    form(13, "OUT_OF_RANGE", Places::None, &[Call::Board], "owner, stop, date, second or horizon is out of its range"),
];

/// The refusal with this number.
pub fn refusal(number: u32) -> Option<&'static RefusalForm> {
    REFUSALS.iter().find(|refusal| refusal.number == number)
}

/// The numbers that a call gives: 0, then its refusals in the order in which they are looked for.
pub fn numbers_of(call: Call) -> Vec<u32> {
    let refusals = REFUSALS.iter().filter(|refusal| refusal.calls.contains(&call));
    std::iter::once(0).chain(refusals.map(|refusal| refusal.number)).collect()
}

#[cfg(test)]
mod tests {
    use super::*;

    #[test]
    fn calls_stand_by_their_places_and_numbers_once() {
        for (place, (call, name)) in CALLS.into_iter().enumerate() {
            assert_eq!((call as usize, call.name()), (place, name));
        }
        let mut numbers: Vec<u32> = REFUSALS.iter().map(|refusal| refusal.number).collect();
        numbers.sort();
        assert_eq!(numbers, (1..=15).chain([18]).collect::<Vec<_>>());
        assert_eq!(numbers_of(Call::Withdraw), [0, 1, 10, 12, 11, 8]);
        assert_eq!(numbers_of(Call::Message), [0, 1, 18, 2, 3, 15, 4, 5, 6, 7, 8]);
        assert_eq!(numbers_of(Call::FeedBegin), [0]);
        assert_eq!(numbers_of(Call::Feed), [0, 1]);
        assert_eq!(numbers_of(Call::FeedEnd), [0, 1, 18, 2, 3, 15, 4, 5, 6, 14, 7, 8]);
    }
}
