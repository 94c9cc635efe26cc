//! Passages as plain values, and their bytes in book and table.

pub use layout::{
    ARRIVAL_AT, BODY_WIDE, BOOK, CANCELLED_MESSAGE, DATE_AT, DEPARTURE_AT, DESTINATION_AT, DOSSIER, FIELDS, FIRST,
    FLEXIBLE_AT, FORTIFY_AT, JOURNEY_AT, KEPT, KEY_WIDE, KIND_AT, KIND_PLAN, KIND_STANDING, KIND_WITHDRAWN, LAST, LINE,
    LINE_AT, MONITORED_AT, NO_TIME, NUMBER_AT, ORDER_AT, OWNER_AT, PAIR, PASSED, PLAN_BODY_AT, PLAN_WIDE, REGISTER,
    ROW, ROWS, SENDER_AT, SHOW_CANCELLED_AT, STAGING, STATUS_AT, STOP_AT, STOP_TYPE_AT, TEXT_WIDE, TIMESTAMP_AT,
    TIME_WIDE, UPDATE_BODY_AT, UPDATE_WIDE,
};

/// A kept text, padded with zero bytes.
pub type Text = [u8; TEXT_WIDE];

#[derive(Clone, Debug, PartialEq, Eq)]
pub struct Key {
    pub owner: Text,
    pub date: u32,
    pub line: Text,
    pub journey: u32,
    pub fortify: u8,
    pub stop: Text,
    pub order: u16,
}

#[derive(Clone, Debug, PartialEq, Eq)]
pub struct Passage {
    pub key: Key,
    pub destination: Text,
    pub stamp: u32,
    pub status: u8,
    pub arrival: u32,
    pub departure: u32,
    pub stop_type: u8,
    pub show_cancelled: u8,
    pub flexible: u8,
    pub monitored: u8,
}

impl Key {
    pub fn bytes(&self) -> [u8; KEY_WIDE] {
        let mut bytes = [0; KEY_WIDE];
        put(&mut bytes, OWNER_AT, &self.owner);
        put(&mut bytes, DATE_AT, &self.date.to_be_bytes());
        put(&mut bytes, LINE_AT, &self.line);
        put(&mut bytes, JOURNEY_AT, &self.journey.to_be_bytes());
        bytes[FORTIFY_AT] = self.fortify;
        put(&mut bytes, STOP_AT, &self.stop);
        put(&mut bytes, ORDER_AT, &self.order.to_be_bytes());
        bytes
    }

    /// Reads a key back from the first bytes of a body or row.
    pub fn read(bytes: &[u8]) -> Key {
        Key {
            owner: text(bytes, OWNER_AT),
            date: number(&bytes[DATE_AT..][..4]),
            line: text(bytes, LINE_AT),
            journey: number(&bytes[JOURNEY_AT..][..4]),
            fortify: bytes[FORTIFY_AT],
            stop: text(bytes, STOP_AT),
            order: number(&bytes[ORDER_AT..][..2]) as u16,
        }
    }
}

impl Passage {
    /// Makes its line short: at its first stop, with no arrival.
    pub fn shorten(&mut self) {
        (self.stop_type, self.arrival) = (FIRST, NO_TIME);
        if self.departure == NO_TIME {
            self.departure = 36_000;
        }
    }

    /// The old form has no word for `message`.
    pub fn in_old_form(&mut self) {
        if self.show_cancelled == CANCELLED_MESSAGE {
            self.show_cancelled = 0;
        }
    }

    pub fn body(&self) -> [u8; BODY_WIDE] {
        let mut bytes = [0; BODY_WIDE];
        bytes[..KEY_WIDE].copy_from_slice(&self.key.bytes());
        put(&mut bytes, DESTINATION_AT, &self.destination);
        put(&mut bytes, TIMESTAMP_AT, &self.stamp.to_be_bytes());
        bytes[STATUS_AT] = self.status;
        put(&mut bytes, ARRIVAL_AT, &self.arrival.to_be_bytes()[1..]);
        put(&mut bytes, DEPARTURE_AT, &self.departure.to_be_bytes()[1..]);
        bytes[STOP_TYPE_AT] = self.stop_type;
        bytes[SHOW_CANCELLED_AT] = self.show_cancelled;
        bytes[FLEXIBLE_AT] = self.flexible;
        bytes[MONITORED_AT] = self.monitored;
        bytes
    }
}

fn put(bytes: &mut [u8], at: usize, content: &[u8]) {
    bytes[at..at + content.len()].copy_from_slice(content);
}

/// A big-endian number of up to four bytes.
pub fn number(bytes: &[u8]) -> u32 {
    bytes.iter().fold(0, |value, &byte| value << 8 | u32::from(byte))
}

fn text(bytes: &[u8], from: usize) -> Text {
    let mut text = [0; TEXT_WIDE];
    text.copy_from_slice(&bytes[from..from + TEXT_WIDE]);
    text
}

/// A text padded to ten bytes; what is longer is cut.
pub fn padded(bytes: &[u8]) -> Text {
    let mut text = [0; TEXT_WIDE];
    let length = bytes.len().min(TEXT_WIDE);
    text[..length].copy_from_slice(&bytes[..length]);
    text
}

/// A padded text without its padding.
pub fn unpadded(text: &[u8]) -> &[u8] {
    let length = text.iter().position(|&byte| byte == 0).unwrap_or(text.len());
    &text[..length]
}
