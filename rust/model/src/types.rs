//! Section 2: the types. Each function gives what is kept of a field, or nothing where the field is outside the type.

use crate::dates::{days_since_2000, is_date};
use crate::form::decoded;
use crate::layout::{LAST_SECOND, TEXT_BYTES};
use crate::passage::Text;

/// Text: decoded, 1 to 10 bytes, each 32 to 126; kept padded with zero bytes.
pub fn text(field: &[u8]) -> Option<Text> {
    padded(&decoded(field)?)
}

/// The padded form of 1 to 10 bytes of 32 to 126, nothing where they are others.
pub fn padded(bytes: &[u8]) -> Option<Text> {
    if bytes.is_empty() || bytes.len() > TEXT_BYTES || !bytes.iter().all(|byte| (32..=126).contains(byte)) {
        return None;
    }
    let mut text = [0; TEXT_BYTES];
    text[..bytes.len()].copy_from_slice(bytes);
    Some(text)
}

/// N#: 1 to # digits, leading zeros among them.
pub fn digits(field: &[u8], most: usize) -> Option<u32> {
    if field.is_empty() || field.len() > most || !field.iter().all(u8::is_ascii_digit) {
        return None;
    }
    Some(field.iter().fold(0, |value, digit| value * 10 + u32::from(digit - b'0')))
}

/// B: `0` or `1`.
pub fn flag(field: &[u8]) -> Option<u32> {
    word(field, &["0", "1"])
}

/// D: YYYY-MM-DD, a real date of the years 2000 to 2099; kept as the number YYYYMMDD.
pub fn date(field: &[u8]) -> Option<u32> {
    let numbers = parted(field, "9999-99-99")?;
    let date = numbers[0] * 10_000 + numbers[1] * 100 + numbers[2];
    is_date(date).then_some(date)
}

/// T: HH:MM:SS, 00:00:00 to 31:59:59; kept as seconds of the operating day.
pub fn time(field: &[u8]) -> Option<u32> {
    let numbers = parted(field, "99:99:99")?;
    let seconds = clock(numbers[0], numbers[1], numbers[2])?;
    (seconds <= LAST_SECOND).then_some(seconds)
}

/// U: YYYY-MM-DDTHH:MM:SS, hours to 23, then + or - and HH:MM up to 14:00; kept as seconds since 1970-01-01 UTC.
pub fn stamp(field: &[u8]) -> Option<u32> {
    if field.len() != 25 {
        return None;
    }
    let written = date(&field[..10])?;
    let numbers = parted(&field[10..19], "T99:99:99")?;
    let offset = offset(&field[19..])?;
    if numbers[0] > 23 {
        return None;
    }
    let local = days_since_2000(written) * 86_400 + u64::from(clock(numbers[0], numbers[1], numbers[2])?);
    u32::try_from(946_684_800 + i64::try_from(local).ok()? - offset).ok()
}

/// U's offset: + or - and HH:MM up to 14:00, in seconds to be taken from the local time.
fn offset(field: &[u8]) -> Option<i64> {
    let numbers = parted(&field[1..], "99:99")?;
    let seconds = i64::from(clock(numbers[0], numbers[1], 0)?);
    match field[0] {
        _ if seconds > 14 * 3_600 => None,
        b'+' => Some(seconds),
        b'-' => Some(-seconds),
        _ => None,
    }
}

/// 2.1: hours, and minutes and seconds to 59, as seconds.
fn clock(hours: u32, minutes: u32, seconds: u32) -> Option<u32> {
    (minutes <= 59 && seconds <= 59).then_some(hours * 3_600 + minutes * 60 + seconds)
}

/// The numbers in a field of just this shape: a 9 stands for a digit, every other byte for itself.
fn parted(field: &[u8], shape: &str) -> Option<Vec<u32>> {
    let fits = |(byte, shape): (&u8, u8)| if shape == b'9' { byte.is_ascii_digit() } else { *byte == shape };
    if field.len() != shape.len() || !field.iter().zip(shape.bytes()).all(fits) {
        return None;
    }
    let runs = field.split(|byte| !byte.is_ascii_digit()).filter(|run| !run.is_empty());
    runs.map(|run| digits(run, 4)).collect()
}

/// Status: kept as 0 to 5.
pub fn status(field: &[u8]) -> Option<u32> {
    word(field, &["PLANNED", "CANCEL", "UNKNOWN", "DRIVING", "ARRIVED", "PASSED"])
}

/// Stop type: kept as 0 to 2.
pub fn stop_type(field: &[u8]) -> Option<u32> {
    word(field, &["FIRST", "INTERMEDIATE", "LAST"])
}

/// Flexible: kept as 1 to 3.
pub fn flexible(field: &[u8]) -> Option<u32> {
    Some(word(field, &["TRUE", "FALSE", "REALTIME"])? + 1)
}

/// Truth, in the 8.5 form: false is kept as 0, true as 1.
pub fn truth(field: &[u8]) -> Option<u32> {
    word(field, &["false", "true"])
}

/// Shown, in the 8.5 form: false is kept as 0, true as 1, message as 2.
pub fn shown(field: &[u8]) -> Option<u32> {
    word(field, &["false", "true", "message"])
}

/// 2.3: which of the words it is, whole and exact, from 0.
fn word(field: &[u8], words: &[&str]) -> Option<u32> {
    let place = words.iter().position(|word| word.as_bytes() == field)?;
    u32::try_from(place).ok()
}
