//! Values as the raw bytes of a field, and fields at and over the edges of each type.

use super::calendar::{date_of_day, DAY_SECONDS};
use super::columns::Kind;
use super::passage::{unpadded, NO_TIME};
use super::random::Random;

pub type Field = Vec<u8>;

pub const NOTHING: &[u8] = br"\0";
pub const STATUSES: [&str; 6] = ["PLANNED", "CANCEL", "UNKNOWN", "DRIVING", "ARRIVED", "PASSED"];
pub const STOP_TYPES: [&str; 3] = ["FIRST", "INTERMEDIATE", "LAST"];
pub const FLEXIBLES: [&str; 3] = ["TRUE", "FALSE", "REALTIME"];
/// In the 8.5 form: what is said of cancelled journeys; the first two are the words of yes/no fields.
pub const SHOWN: [&str; 3] = ["false", "true", "message"];

/// The seconds at which a written date begins to be one of 2000, and ends to be one of 2099.
const LOCAL_SECONDS: std::ops::RangeInclusive<i64> = 946_684_800..=4_102_444_799;

pub fn text(padded: &[u8]) -> Field {
    escaped(unpadded(padded))
}

pub fn escaped(bytes: &[u8]) -> Field {
    let mut field = Vec::with_capacity(bytes.len() + 4);
    for &byte in bytes {
        match byte {
            b'\\' => field.extend_from_slice(br"\i"),
            b'|' => field.extend_from_slice(br"\p"),
            b'\r' => field.extend_from_slice(br"\r"),
            b'\n' => field.extend_from_slice(br"\n"),
            _ => field.push(byte),
        }
    }
    field
}

/// A number, now and then with leading zeros up to its digits.
pub fn number(value: u32, digits: usize, random: &mut Random) -> Field {
    let plain = value.to_string();
    let width = if random.one_in(4) { random.range(plain.len(), digits) } else { plain.len() };
    format!("{value:0width$}").into_bytes()
}

pub fn date(number: u32) -> Field {
    format!("{:04}-{:02}-{:02}", number / 10_000, number / 100 % 100, number % 100).into_bytes()
}

pub fn time(seconds: u32) -> Field {
    if seconds == NO_TIME {
        return NOTHING.to_vec();
    }
    format!("{:02}:{:02}:{:02}", seconds / 3_600, seconds / 60 % 60, seconds % 60).into_bytes()
}

/// The moment written at some offset at which its written date is in 2000 to 2099.
pub fn stamp(seconds: u32, random: &mut Random) -> Field {
    let wished = *random.pick(&[0, 60, 60, 120, -60, 840, -840, 839, -839, 1, -1, 345]);
    let fits = |offset: i64| LOCAL_SECONDS.contains(&(i64::from(seconds) + offset * 60));
    let offset = [wished, 840, -840].into_iter().find(|&offset| fits(offset)).unwrap_or(0);
    stamp_at(i64::from(seconds), offset, offset < 0 || (offset == 0 && random.one_in(2)))
}

fn stamp_at(seconds: i64, offset: i64, minus: bool) -> Field {
    let local = seconds + offset * 60;
    let (year, month, day) = date_of_day(local.div_euclid(DAY_SECONDS));
    let second = local.rem_euclid(DAY_SECONDS);
    let (hours, minutes) = (second / 3_600, second / 60 % 60);
    let sign = if minus { '-' } else { '+' };
    let (ahead, by) = (offset.abs() / 60, offset.abs() % 60);
    format!("{year:04}-{month:02}-{day:02}T{hours:02}:{minutes:02}:{:02}{sign}{ahead:02}:{by:02}", second % 60)
        .into_bytes()
}

pub fn word(words: &[&str], index: u8) -> Field {
    words[usize::from(index)].as_bytes().to_vec()
}

/// A field at an edge of its type, on either side of it.
pub fn at_edge(kind: Kind, random: &mut Random) -> Field {
    match kind {
        Kind::Text => text_at_edge(random),
        Kind::Number(digits) => number_at_edge(digits, random),
        Kind::Flag => one_of(&["0", "1", "2", "00", "true", "false", "message", "TRUE", "1 ", "/", ""], random),
        Kind::Date => one_of(DATE_EDGES, random),
        Kind::Time => one_of(TIME_EDGES, random),
        Kind::Stamp => stamp_at_edge(random),
        Kind::Status => one_of(STATUS_EDGES, random),
        Kind::StopType => one_of(STOP_TYPE_EDGES, random),
        Kind::Flexible => one_of(FLEXIBLE_EDGES, random),
        Kind::Truth | Kind::Shown => one_of(SHOWN_EDGES, random),
    }
}

fn one_of(fields: &[&str], random: &mut Random) -> Field {
    random.pick(fields).as_bytes().to_vec()
}

const DATE_EDGES: &[&str] = &[
    "2000-02-29",
    "2023-02-29",
    "2024-02-29",
    "2024-02-30",
    "2096-02-29",
    "2099-02-29",
    "1999-12-31",
    "2000-01-01",
    "2099-12-31",
    "2100-01-01",
    "2100-02-29",
    "2016-00-10",
    "2016-13-10",
    "2016-04-30",
    "2016-04-31",
    "2016-06-31",
    "2016-09-31",
    "2016-11-31",
    "2016-01-31",
    "2016-12-31",
    "2016-01-32",
    "2016-01-00",
    "2016-1-1",
    "2016/01/01",
    "20160101",
    "2016-01-01 ",
    " 2016-01-01",
    "2016-01-1a",
    "2016-01-0:",
    "20l6-01-01",
    "2016-01-011",
    "0016-01-01",
    "",
];

const TIME_EDGES: &[&str] = &[
    "00:00:00",
    "23:59:59",
    "24:00:00",
    "31:59:59",
    "32:00:00",
    "31:60:00",
    "31:59:60",
    "23:60:00",
    "23:59:60",
    "99:00:00",
    "8:00:00",
    "08:00",
    "08:00:0",
    "08:00:000",
    "08.00.00",
    "08:00:0 ",
    "-8:00:00",
    "08:0a:00",
    "0/:00:00",
    "08:/9:00",
    "08:00:5:",
    "3:159:59",
    "",
];

const STATUS_EDGES: &[&str] = &[
    "PLANNED",
    "CANCEL",
    "UNKNOWN",
    "DRIVING",
    "ARRIVED",
    "PASSED",
    "PLAN",
    "CANCELLED",
    "planned",
    "Driving",
    "PASSED ",
    " PASSED",
    "ARRIVE",
    "ARRIVEDX",
    "UNKNOWM",
    "OFFROUTE",
    "",
];

const STOP_TYPE_EDGES: &[&str] =
    &["FIRST", "INTERMEDIATE", "LAST", "first", "LASTS", "LAS", "INTERMEDIATE ", "INTERMEDIATF", "1", ""];

const FLEXIBLE_EDGES: &[&str] =
    &["TRUE", "FALSE", "REALTIME", "true", "realtime", "REALTIM", "REALTIMES", "TRUE ", "1", "0", ""];

const SHOWN_EDGES: &[&str] = &[
    "true", "false", "message", "TRUE", "False", "MESSAGE", "Message", "tru", "truee", "fals", "messag", "messages",
    " true", "false ", "0", "1", "2", "REALTIME", "",
];

fn text_at_edge(random: &mut Random) -> Field {
    let special = *random.pick(&[0x1f_u8, 0x20, 0x7e, 0x7f, 0x80, 0xff, b'\\', b'|', b'\r', b'\n']);
    let mut bytes = vec![b'a'; *random.pick(&[0, 1, 2, 9, 10, 11, 12, 20])];
    if !bytes.is_empty() && special >= 0x20 || matches!(special, b'\r' | b'\n') {
        let place = random.below(bytes.len().max(1));
        bytes.resize(bytes.len().max(1), special);
        bytes[place] = special;
        if random.one_in(4) {
            bytes.fill(special);
        }
    }
    escaped(&bytes)
}

fn number_at_edge(digits: usize, random: &mut Random) -> Field {
    let nines = "9".repeat(digits);
    let one_more = format!("1{}", "0".repeat(digits));
    let zeros = "0".repeat(digits);
    let padded = format!("0{zeros}");
    one_of(&[&nines, &one_more, &zeros, &padded, "", "0", "-1", "+1", " 1", "1 ", "/", ":", "1a", "1.0", "１"], random)
}

fn stamp_at_edge(random: &mut Random) -> Field {
    let date = if random.one_in(3) { one_of(DATE_EDGES, random) } else { one_of(GOOD_DATES, random) };
    let time = if random.one_in(3) { one_of(TIME_EDGES, random) } else { one_of(GOOD_TIMES, random) };
    let middle = if random.one_in(12) { *random.pick(b" tZ-") } else { b'T' };
    let offset = random.pick(OFFSET_EDGES).as_bytes();
    let mut field = date;
    field.push(middle);
    field.extend_from_slice(&time);
    field.extend_from_slice(offset);
    if random.one_in(12) {
        field.push(*random.pick(b" 0Z"));
    }
    field
}

const GOOD_DATES: &[&str] = &["2000-01-01", "2000-02-29", "2016-03-01", "2099-12-31"];
const GOOD_TIMES: &[&str] = &["00:00:00", "23:59:59", "15:15:30", "09:59:59", "19:00:00"];
const OFFSET_EDGES: &[&str] = &[
    "+00:00", "-00:00", "+01:00", "+14:00", "-14:00", "+13:59", "-13:59", "+14:01", "-14:01", "+13:60", "+15:00",
    "-99:00", "+1:00", "+0100", "Z", "", " 01:00", "+01-00", "+0a:00", "+01:0:", "*01:00", ",01:00",
];
