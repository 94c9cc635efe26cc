//! The fields of a row and of an entry, by place.

use crate::*;

/// What stands in a field.
#[derive(Clone, Copy, Debug, PartialEq, Eq)]
pub enum Content {
    /// A text padded with zeros.
    Text,
    /// A big-endian number.
    Number,
    /// A date as the number YYYYMMDD.
    Date,
    /// A time of the operating day in seconds, or [`NO_TIME`].
    Time,
    /// Seconds since 1970.
    Timestamp,
    /// A byte that stands for a word, or for yes and no.
    Code,
}

/// A field: its name, its first byte, its width, and what it holds.
#[derive(Clone, Copy, Debug, PartialEq, Eq)]
pub struct Field {
    #[allow(missing_docs)]
    pub name: &'static str,
    #[allow(missing_docs)]
    pub at: usize,
    #[allow(missing_docs)]
    pub wide: usize,
    #[allow(missing_docs)]
    pub content: Content,
}

const fn field(name: &'static str, at: usize, wide: usize, content: Content) -> Field {
    Field { name, at, wide, content }
}

/// The fields of a row, one behind the other. The last, heard, is no part of a body.
pub const FIELDS: [Field; 17] = [
    field("owner", OWNER_AT, TEXT_WIDE, Content::Text),
    field("date", DATE_AT, DATE_WIDE, Content::Date),
    field("line", LINE_AT, TEXT_WIDE, Content::Text),
    field("journey", JOURNEY_AT, JOURNEY_WIDE, Content::Number),
    field("fortify", FORTIFY_AT, 1, Content::Number),
    field("stop", STOP_AT, TEXT_WIDE, Content::Text),
    field("order", ORDER_AT, ORDER_WIDE, Content::Number),
    field("destination", DESTINATION_AT, TEXT_WIDE, Content::Text),
    field("timestamp", TIMESTAMP_AT, TIMESTAMP_WIDE, Content::Timestamp),
    field("status", STATUS_AT, 1, Content::Code),
    field("arrival", ARRIVAL_AT, TIME_WIDE, Content::Time),
    field("departure", DEPARTURE_AT, TIME_WIDE, Content::Time),
    field("stop type", STOP_TYPE_AT, 1, Content::Code),
    field("show cancelled", SHOW_CANCELLED_AT, 1, Content::Code),
    field("flexible", FLEXIBLE_AT, 1, Content::Code),
    field("monitored", MONITORED_AT, 1, Content::Code),
    field("heard", HEARD_AT, 1, Content::Code),
];

const KIND: Field = field("kind", KIND_AT, 1, Content::Code);
const NUMBER: Field = field("number", NUMBER_AT, 4, Content::Number);
const SENDER_BYTE: Field = field("sender", SENDER_AT, 1, Content::Number);

/// The field of a body or row that this byte of it belongs to; none behind a row.
pub fn body_field(byte: usize) -> Option<Field> {
    FIELDS.into_iter().find(|field| (field.at..field.at + field.wide).contains(&byte))
}

/// The row that this byte of a table belongs to, from 0, and its field.
pub fn field_in_row(byte: usize) -> (usize, Field) {
    let in_row = byte % ROW;
    (byte / ROW, body_field(in_row).unwrap_or(FIELDS[16]))
}

/// Bytes of an entry whose first byte is this one.
pub fn entry_wide(kind: u8) -> usize {
    if kind == KIND_PLAN {
        PLAN_WIDE
    } else {
        UPDATE_WIDE
    }
}

/// The entry that this byte of a book belongs to, from 0, and its field: none where the book has no such byte.
pub fn field_in_book(book: &[u8], byte: usize) -> Option<(usize, Field)> {
    let (mut entry, mut start) = (0, 0);
    let wide = |start: usize| book.get(start).map(|&kind| entry_wide(kind));
    while start + wide(start)? <= byte {
        start += wide(start)?;
        entry += 1;
    }
    let (place, body_at) = match book[start] {
        KIND_PLAN => (byte - start, PLAN_BODY_AT),
        _ => (byte - start, UPDATE_BODY_AT),
    };
    let field = match place {
        KIND_AT => KIND,
        _ if place >= body_at => body_field(place - body_at)?,
        SENDER_AT => SENDER_BYTE,
        _ => NUMBER,
    };
    Some((entry, field))
}

#[cfg(test)]
mod tests {
    use super::*;

    #[test]
    fn fields_follow_one_another_and_fill_a_row() {
        let mut at = 0;
        for field in FIELDS {
            assert_eq!(field.at, at, "{}", field.name);
            at += field.wide;
        }
        assert_eq!(at, ROW);
        assert_eq!(body_field(KEY_WIDE).map(|field| field.name), Some("destination"));
        assert_eq!(body_field(BODY_WIDE).map(|field| field.name), Some("heard"));
        assert_eq!(body_field(ROW), None);
    }

    #[test]
    fn bytes_of_a_book_by_entry_and_field() {
        let mut book = vec![0; PLAN_WIDE + 2 * UPDATE_WIDE];
        book[0] = KIND_PLAN;
        let named = |byte| field_in_book(&book, byte).map(|(entry, field)| (entry, field.name));
        assert_eq!(named(0), Some((0, "kind")));
        assert_eq!(named(1), Some((0, "owner")));
        assert_eq!(named(66), Some((0, "monitored")));
        assert_eq!(named(67), Some((1, "kind")));
        assert_eq!(named(68), Some((1, "number")));
        assert_eq!(named(72), Some((1, "sender")));
        assert_eq!(named(73), Some((1, "owner")));
        assert_eq!(named(138), Some((1, "monitored")));
        assert_eq!(named(139 + 6 + STATUS_AT), Some((2, "status")));
        assert_eq!(named(book.len()), None);
    }
}
