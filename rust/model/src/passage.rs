//! 4.1 and 4.5: a passage's body as plain numbers, to and from its bytes, and the ranges of its fields.

use crate::dates::is_date;
use crate::layout::*;
use crate::types::padded;

/// A text as it is kept: padded with zero bytes.
pub type Text = [u8; TEXT_BYTES];

/// 4.1: the key. Its fields stand in the order of its bytes, and texts and numbers rise as their bytes do: so keys rise as theirs.
#[derive(Clone, Copy, Debug, PartialEq, Eq, PartialOrd, Ord)]
pub struct Key {
    pub owner: Text,
    pub date: u32,
    pub line: Text,
    pub journey: u32,
    pub fortify: u32,
    pub stop: Text,
    pub order: u32,
}

/// 4.1: the body.
#[derive(Clone, Copy, Debug, PartialEq, Eq)]
pub struct Body {
    pub key: Key,
    pub destination: Text,
    pub timestamp: u32,
    pub status: u32,
    pub arrival: u32,
    pub departure: u32,
    pub stop_type: u32,
    pub show_cancelled: u32,
    pub flexible: u32,
    pub monitored: u32,
}

/// 4: a text at a place.
fn text_at(bytes: &[u8], at: usize) -> Text {
    let mut text = [0; TEXT_BYTES];
    text.copy_from_slice(&bytes[at..at + TEXT_BYTES]);
    text
}

/// 4: a big-endian number at a place.
pub fn number_at(bytes: &[u8], at: usize, width: usize) -> u32 {
    bytes[at..at + width].iter().fold(0, |value, byte| value << 8 | u32::from(*byte))
}

/// 4: a number's big-endian bytes.
pub fn number_bytes(value: u32, width: usize) -> impl Iterator<Item = u8> {
    value.to_be_bytes().into_iter().skip(4 - width)
}

impl Key {
    /// The table of 4.1, to byte 40.
    fn read(bytes: &[u8]) -> Key {
        Key {
            owner: text_at(bytes, 0),
            date: number_at(bytes, 10, 4),
            line: text_at(bytes, 14),
            journey: number_at(bytes, 24, 4),
            fortify: number_at(bytes, 28, 1),
            stop: text_at(bytes, 29),
            order: number_at(bytes, 39, 2),
        }
    }

    /// The key's 41 bytes.
    pub fn bytes(&self) -> Vec<u8> {
        let mut bytes = Vec::with_capacity(KEY_BYTES);
        bytes.extend(self.owner);
        bytes.extend(number_bytes(self.date, 4));
        bytes.extend(self.line);
        bytes.extend(number_bytes(self.journey, 4));
        bytes.extend(number_bytes(self.fortify, 1));
        bytes.extend(self.stop);
        bytes.extend(number_bytes(self.order, 2));
        bytes
    }
}

impl Body {
    /// The table of 4.1.
    pub fn read(bytes: &[u8]) -> Body {
        Body {
            key: Key::read(bytes),
            destination: text_at(bytes, 41),
            timestamp: number_at(bytes, 51, 4),
            status: number_at(bytes, 55, 1),
            arrival: number_at(bytes, 56, 3),
            departure: number_at(bytes, 59, 3),
            stop_type: number_at(bytes, 62, 1),
            show_cancelled: number_at(bytes, 63, 1),
            flexible: number_at(bytes, 64, 1),
            monitored: number_at(bytes, 65, 1),
        }
    }

    /// The body's 66 bytes.
    pub fn bytes(&self) -> Vec<u8> {
        let mut bytes = self.key.bytes();
        bytes.extend(self.destination);
        bytes.extend(number_bytes(self.timestamp, 4));
        bytes.extend(number_bytes(self.status, 1));
        bytes.extend(number_bytes(self.arrival, 3));
        bytes.extend(number_bytes(self.departure, 3));
        bytes.extend(number_bytes(self.stop_type, 1));
        bytes.extend(number_bytes(self.show_cancelled, 1));
        bytes.extend(number_bytes(self.flexible, 1));
        bytes.extend(number_bytes(self.monitored, 1));
        bytes
    }

    /// 4.1: the ranges that plan entries, updates and rows share.
    fn in_common_range(&self) -> bool {
        let key = &self.key;
        [key.owner, key.line, key.stop, self.destination].iter().all(is_padded)
            && is_date(key.date)
            && key.journey <= 999_999
            && key.fortify <= 99
            && key.order <= 999
            && self.status <= PASSED
            && self.stop_type <= LAST
            && (self.arrival <= LAST_SECOND || self.arrival == NO_TIME && self.stop_type == FIRST)
            && (self.departure <= LAST_SECOND || self.departure == NO_TIME && self.stop_type == LAST)
    }

    /// 4.5, a plan entry: what open writes.
    pub fn is_plan(&self) -> bool {
        self.in_common_range()
            && self.timestamp == 0
            && self.status == PLANNED
            && self.show_cancelled == 1
            && self.flexible <= FLEXIBLE_REALTIME
            && self.monitored == 0
    }

    /// 4.5, an update: a timestamp that a U field can give; the three optionals may be 255, and flexible is never 0.
    pub fn is_update(&self) -> bool {
        self.in_common_range()
            && is_stamp(self.timestamp)
            && matches!(self.show_cancelled, 0 | 1 | 2 | KEPT)
            && matches!(self.flexible, 1 | 2 | 3 | KEPT)
            && matches!(self.monitored, 0 | 1 | KEPT)
    }
}

/// 4.2: a row: a body, and whether it was heard.
#[derive(Clone, Copy, Debug, PartialEq, Eq)]
pub struct Row {
    pub body: Body,
    pub heard: u32,
}

impl Row {
    pub fn read(bytes: &[u8]) -> Row {
        Row { body: Body::read(bytes), heard: number_at(bytes, BODY_BYTES, 1) }
    }

    pub fn bytes(&self) -> Vec<u8> {
        let mut bytes = self.body.bytes();
        bytes.extend(number_bytes(self.heard, 1));
        bytes
    }

    /// 4.5, a row: heard 0 with timestamp 0, or heard 1 with a timestamp that a U field can give; nothing else is tied to heard.
    pub fn in_range(&self) -> bool {
        let body = &self.body;
        body.in_common_range()
            && (self.heard == 0 && body.timestamp == 0 || self.heard == 1 && is_stamp(body.timestamp))
            && body.show_cancelled <= 2
            && body.flexible <= FLEXIBLE_REALTIME
            && body.monitored <= 1
    }
}

/// 4.5: a timestamp that a U field can give.
fn is_stamp(timestamp: u32) -> bool {
    (FIRST_STAMP..=LAST_STAMP).contains(&timestamp)
}

/// 4.1: 1 to 10 bytes of 32 to 126, then only zero bytes.
fn is_padded(text: &Text) -> bool {
    let length = text.iter().position(|byte| *byte == 0).unwrap_or(TEXT_BYTES);
    padded(&text[..length]) == Some(*text)
}
