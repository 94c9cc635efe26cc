//! Every type at its borders: which fields it has, and as what they are kept.

use crate::lines::*;
use crate::panel::{Day, Panel};
use crate::worlds::calendar::{day_of_number, number_of_day, DAY_SECONDS};
use crate::worlds::passage::padded;

use super::sizes::update_body;

/// The body that a message with this line writes, or the column at fault.
fn said(panel: &Panel, line: &Line) -> Result<Vec<u8>, u64> {
    let mut day = Day::new(panel, 72, 67);
    let answer = day.message(message(std::slice::from_ref(line)), 7, &[pair(7, b"CXX"), pair(7, b" ")].concat());
    match answer[0] {
        0 => Ok(day.state.book[6..72].to_vec()),
        5 => Err(answer[2]),
        other => panic!("answer {other}"),
    }
}

/// What is kept at these bytes of the body where the column has this field, or nothing where it is at fault.
fn kept(panel: &Panel, name: &'static str, field: &[u8], at: std::ops::Range<usize>) -> Option<Vec<u8>> {
    let line = Line::update().with(name, field);
    match said(panel, &line) {
        Ok(body) => {
            let mut others = body.clone();
            others[at.clone()].copy_from_slice(&update_body()[at.clone()]);
            assert_eq!(others, update_body(), "{name} changes nothing but its own bytes");
            Some(body[at].to_vec())
        }
        Err(column) => {
            assert_eq!(column, line.column(name));
            None
        }
    }
}

fn number(panel: &Panel, name: &'static str, field: &str, at: std::ops::Range<usize>) -> Option<u32> {
    let bytes = kept(panel, name, field.as_bytes(), at)?;
    Some(bytes.iter().fold(0, |value, &byte| value << 8 | u32::from(byte)))
}

/// Texts: 1 to 10 bytes after decoding, each 32 to 126.
pub fn texts(panel: &Panel) {
    let places = [("LinePlanningNumber", 14), ("UserStopCode", 29), ("DestinationCode", 41)];
    for (name, at) in places {
        for byte in 32..=255_u8 {
            for length in [1, 10, 11] {
                let field: Vec<u8> = match byte {
                    b'\\' => b"\\i".repeat(length),
                    b'|' => b"\\p".repeat(length),
                    _ => vec![byte; length],
                };
                let expected = (byte <= 126 && length <= 10).then(|| padded(&vec![byte; length]).to_vec());
                assert_eq!(kept(panel, name, &field, at..at + 10), expected, "{name} {byte} by {length}");
            }
        }
        for length in 0..=12 {
            let expected = (1..=10).contains(&length).then(|| padded(&b"abcdefghijkl"[..length]).to_vec());
            assert_eq!(kept(panel, name, &b"abcdefghijkl"[..length], at..at + 10), expected);
        }
        for (field, text) in
            [("\\p\\i", Some("|\\")), ("a\\pb", Some("a|b")), ("\\i\\i\\i\\i\\i\\i\\i\\i\\i\\ix", None)]
        {
            let expected = text.map(|text| padded(text.as_bytes()).to_vec());
            assert_eq!(kept(panel, name, field.as_bytes(), at..at + 10), expected);
        }
        for field in ["\\r", "a\\n", "\\0", "", "abcdefghi\\r", "\\nabcdefgh"] {
            assert_eq!(kept(panel, name, field.as_bytes(), at..at + 10), None, "{field}");
        }
        assert_eq!(kept(panel, name, b" ", at..at + 10), Some(padded(b" ").to_vec()), "blanks count");
    }
}

/// N6, N2 and N3: digits with leading zeros, as many as the type has.
pub fn numbers(panel: &Panel) {
    let types =
        [("VehicleJourneyNumber", 6, 24..28), ("FortifyOrderNumber", 2, 28..29), ("UserStopOrderNumber", 3, 39..41)];
    for (name, digits, at) in types {
        let most = 10_u32.pow(digits) - 1;
        for value in [0, 1, 9, 10, 11, 99, 100, 255, 256, 257, most / 2, most - 1, most, most + 1] {
            let expected = (value <= most).then_some(value);
            assert_eq!(number(panel, name, &value.to_string(), at.clone()), expected, "{name} {value}");
        }
        for width in 1..=digits as usize + 2 {
            let expected = (width <= digits as usize).then_some(7);
            assert_eq!(
                number(panel, name, &format!("{:0width$}", 7), at.clone()),
                expected,
                "{name} of {width} digits"
            );
        }
        for field in ["", "\\0", "-1", "+1", " 1", "1 ", "1a", "/", ":", "0x1", "1.", "\\p"] {
            assert_eq!(number(panel, name, field, at.clone()), None, "{name} {field}");
        }
    }
}

/// B, status, stop type and flexible: exact words, and what each is kept as.
pub fn words(panel: &Panel) {
    let types: [(&'static str, usize, &[&str], u32); 5] = [
        ("ShowCancelledTrip", 63, &["0", "1"], 0),
        ("Monitored", 65, &["0", "1"], 0),
        ("TripStopStatus", 55, &["PLANNED", "CANCEL", "UNKNOWN", "DRIVING", "ARRIVED", "PASSED"], 0),
        ("JourneyStopType", 62, &["FIRST", "INTERMEDIATE", "LAST"], 0),
        ("ShowFlexibleTrip", 64, &["TRUE", "FALSE", "REALTIME"], 1),
    ];
    for (name, at, words, from) in types {
        for (place, word) in words.iter().enumerate() {
            assert_eq!(number(panel, name, word, at..at + 1), Some(place as u32 + from), "{name} {word}");
            let lower = word.to_lowercase();
            let cut = &word[..word.len() - 1];
            let wrong = [format!("{word} "), format!(" {word}"), format!("{word}{word}"), cut.to_string(), lower];
            for field in wrong.iter().filter(|field| !words.contains(&field.as_str())) {
                assert_eq!(number(panel, name, field, at..at + 1), None, "{name} {field}");
            }
        }
        for field in ["", "2", "00", "PLAN", "TRUE|", "01", "CANCELLED", "x"] {
            if !field.contains('|') {
                assert_eq!(number(panel, name, field, at..at + 1), None, "{name} {field}");
            }
        }
    }
}

/// T: every hour, minute and second at its ends.
pub fn times(panel: &Panel) {
    for (name, at) in [("ExpectedArrivalTime", 56..59), ("ExpectedDepartureTime", 59..62)] {
        for hours in 0..=33_u32 {
            for (minutes, seconds) in [(0, 0), (59, 59), (0, 59), (59, 0), (7, 30), (60, 0), (0, 60), (99, 99)] {
                let field = format!("{hours:02}:{minutes:02}:{seconds:02}");
                let fits = hours <= 31 && minutes <= 59 && seconds <= 59;
                let expected = fits.then_some(hours * 3_600 + minutes * 60 + seconds);
                assert_eq!(number(panel, name, &field, at.clone()), expected, "{field}");
            }
        }
        for field in ["", "8:00:00", "08:00", "08:00:0", "08:00:000", "08.00.00", "-8:00:00", "08:00:00 ", "99:00:00"] {
            assert_eq!(number(panel, name, field, at.clone()), None, "{field}");
        }
    }
}

/// 3.4: `\0` as an arrival only at FIRST and as a departure only at LAST, by the line's own stop type; in no other required column.
pub fn no_content(panel: &Panel) {
    for (word, arrival, departure) in [
        ("FIRST", true, false),
        ("INTERMEDIATE", false, false),
        ("LAST", false, true),
        ("first", false, false),
        ("LAST ", false, false),
    ] {
        let line = Line::update().with("JourneyStopType", word);
        let wrong_type = !matches!(word, "FIRST" | "INTERMEDIATE" | "LAST");
        for (name, may, at) in [("ExpectedArrivalTime", arrival, 56), ("ExpectedDepartureTime", departure, 59)] {
            match said(panel, &line.clone().with(name, "\\0")) {
                Ok(body) => assert!(may && body[at..at + 3] == [255; 3], "{word} {name}"),
                Err(column) => assert!(!may && (column == line.column(name)), "{word} {name}"),
            }
        }
        assert_eq!(said(panel, &line).is_err(), wrong_type);
    }
    for name in Line::update().names() {
        let optional = matches!(name, "ShowCancelledTrip" | "ShowFlexibleTrip" | "Monitored");
        assert_eq!(said(panel, &Line::update().with(name, "\\0")).is_ok(), optional, "{name}");
        assert!(said(panel, &Line::update().with(name, "")).is_err(), "{name} empty");
    }
    for name in Line::pass_time().names() {
        let mut day = Day::new(panel, 67, 67);
        let line = Line::pass_time().with(name, "\\0");
        let answer = day.open(planning(std::slice::from_ref(&line)), calendar(&[Line::validity()]));
        let expected = if name == "ShowFlexibleTrip" { [0, 0, 0, 0] } else { [5, 4, line.column(name), 1] };
        assert_eq!(answer[..4], expected, "{name}");
    }
    for name in Line::validity().names() {
        let line = Line::validity().with(name, "\\0");
        let answer = Day::new(panel, 67, 67).open(planning(&[]), calendar(std::slice::from_ref(&line)));
        assert_eq!(answer[..4], [5, 4, line.column(name), 2], "{name}");
    }
}

/// An optional column that is absent leaves 255 in a message and 0 in the planning, each of them alone and all together.
pub fn absent(panel: &Panel) {
    let optional = ["ShowCancelledTrip", "ShowFlexibleTrip", "Monitored"];
    for absent in 0..8 {
        let said_all = Line::update().with(optional[0], "1").with(optional[1], "REALTIME").with(optional[2], "0");
        let mut expected = [1, 3, 0];
        let mut line = said_all;
        for place in (0..3).filter(|place| absent >> place & 1 == 1) {
            line = line.without(optional[place]);
            expected[place] = 255;
        }
        assert_eq!(said(panel, &line).expect("a right line")[63..], expected);
    }
    for (line, flexible) in [
        (Line::pass_time().without("ShowFlexibleTrip"), 0),
        (Line::pass_time(), 0),
        (Line::pass_time().with("ShowFlexibleTrip", "FALSE"), 2),
    ] {
        let mut day = Day::new(panel, 67, 67);
        assert_eq!(day.open(planning(&[line]), calendar(&[Line::validity()]))[0], 0);
        assert_eq!(day.state.book[64..67], [1, flexible, 0]);
    }
    for name in Line::update().names() {
        let answer = Day::new(panel, 72, 67).message(message(&[Line::update().without(name)]), 7, &pair(7, b"CXX"));
        assert_eq!(answer[..2], if optional.contains(&name) { [0, 1] } else { [4, 3] }, "without {name}");
    }
    for name in Line::pass_time().names() {
        let answer =
            Day::new(panel, 67, 67).open(planning(&[Line::pass_time().without(name)]), calendar(&[Line::validity()]));
        assert_eq!(answer[..4], if name == "ShowFlexibleTrip" { [0, 0, 0, 0] } else { [4, 3, 0, 1] }, "without {name}");
    }
    for name in Line::validity().names() {
        let answer = Day::new(panel, 67, 67).open(planning(&[]), calendar(&[Line::validity().without(name)]));
        assert_eq!(answer[..4], [4, 3, 0, 2], "without {name}");
    }
}

/// D and U at every month border of the century: the days before and after each are dates or not as the calendar says, and the seconds
/// of timestamps go on by one over it.
pub fn months(panel: &Panel) {
    for year in 2000..=2099 {
        for month in 1..=12 {
            let first = day_of_number(year * 10_000 + month * 100 + 1);
            let next = if month == 12 { (year + 1) * 10_000 + 101 } else { year * 10_000 + (month + 1) * 100 + 1 };
            let last_of_month = (day_of_number(next) - first) as u32;
            for day in [0, 1, last_of_month, last_of_month + 1] {
                let written = year * 10_000 + month * 100 + day;
                let is_date = (1..=last_of_month).contains(&day);
                let expected = is_date.then_some(written);
                assert_eq!(number(panel, "OperationDate", &date(written), 10..14), expected, "{written}");
                let (edge, of_day) = if day == 1 { ("00:00:00", 0) } else { ("23:59:59", DAY_SECONDS - 1) };
                let field = format!("{}T{edge}+00:00", date(written));
                let stamp = is_date.then(|| (day_of_number(written) * DAY_SECONDS + of_day) as u32);
                assert_eq!(number(panel, "LastUpdateTimeStamp", &field, 51..55), stamp, "{field}");
            }
        }
    }
    for written in [19_991_231, 21_000_101, 20_160_001, 20_161_301, 101, 99_991_231] {
        assert_eq!(number(panel, "OperationDate", &date(written), 10..14), None, "{written}");
    }
}

/// U: offsets to 14:00 on both sides, hours to 23, and the least and the most seconds that a field can give.
pub fn stamps(panel: &Panel) {
    let at = |field: &str| number(panel, "LastUpdateTimeStamp", field, 51..55);
    assert_eq!(at("2016-03-01T15:15:30+01:00"), Some(1_456_841_730));
    for hours in 0..=15 {
        for minutes in [0, 1, 30, 59, 60] {
            for sign in ['+', '-'] {
                let field = format!("2016-03-01T15:15:30{sign}{hours:02}:{minutes:02}");
                let ahead = (hours * 3_600 + minutes * 60) as i64 * if sign == '+' { 1 } else { -1 };
                let fits = minutes <= 59 && hours * 60 + minutes <= 840;
                assert_eq!(at(&field), fits.then_some((1_456_845_330 - ahead) as u32), "{field}");
            }
        }
    }
    assert_eq!(at("2000-01-01T00:00:00+14:00"), Some(946_634_400));
    assert_eq!(at("2099-12-31T23:59:59-14:00"), Some(4_102_495_199));
    for hours in [22, 23, 24, 25, 31] {
        let expected = (hours <= 23).then_some(1_456_790_400 + hours * 3_600);
        assert_eq!(at(&format!("2016-03-01T{hours:02}:00:00+00:00")), expected);
    }
    for field in [
        "",
        "2016-03-01T15:15:30Z",
        "2016-03-01T15:15:30",
        "2016-03-01 15:15:30+01:00",
        "2016-03-01t15:15:30+01:00",
        "2016-03-01T15:15:30.0+01:00",
        "2016-03-01T15:15:30+01:00 ",
        "2016-03-01T15:15:30+0100",
        "2016-03-01T15:15:30 01:00",
        "2016-03-01T15:60:30+01:00",
        "2016-03-01T15:15:60+01:00",
        "2023-02-29T15:15:30+01:00",
        "1999-12-31T23:59:59-14:00",
        "2100-01-01T00:00:00+14:00",
    ] {
        assert_eq!(at(field), None, "{field}");
    }
}

/// Every byte of a right field of every type changed to every other that the form allows.
pub fn one_byte(panel: &Panel) {
    let fields: [(&'static str, &[u8]); 9] = [
        ("OperationDate", b"2016-12-28"),
        ("VehicleJourneyNumber", b"109999"),
        ("UserStopCode", b"S1\\pS\\i"),
        ("LastUpdateTimeStamp", b"2019-10-20T11:15:35+01:09"),
        ("TripStopStatus", b"PASSED"),
        ("ExpectedDepartureTime", b"19:39:40"),
        ("JourneyStopType", b"LAST"),
        ("ShowFlexibleTrip", b"REALTIME"),
        ("Monitored", b"1"),
    ];
    for (name, field) in fields {
        for place in 0..field.len() {
            for byte in (32..=255).filter(|&byte| byte != b'\\') {
                let mut changed = field.to_vec();
                changed[place] = byte;
                Day::new(panel, 72, 67).message(message(&[Line::update().with(name, changed)]), 7, &pair(7, b"CXX"));
            }
        }
    }
    let whole = message(&[Line::update().with("UserStopCode", "\\p\\i")]);
    for place in 0..whole.len() {
        for byte in *b"\\|\r\n\0GTLrnip0x\x1f \x7f\xff" {
            let mut changed = whole.clone();
            changed[place] = byte;
            Day::new(panel, 72, 67).message(changed, 7, &pair(7, b"CXX"));
        }
    }
}

/// Dates that are no month's ends: every day from the first of 2000 to the last of 2099 is a date, in order.
pub fn every_day(panel: &Panel) {
    let (first, last) = (day_of_number(20_000_101), day_of_number(20_991_231));
    for chunk in (first..=last).collect::<Vec<_>>().chunks(400) {
        let lines: Vec<Line> = chunk
            .iter()
            .map(|&day| {
                Line::update().short().with("DataOwnerCode", "CXX").with("OperationDate", date(number_of_day(day)))
            })
            .collect();
        let mut day = Day::new(panel, 72 * 400, 67 * 400);
        assert_eq!(day.message(message(&lines), 7, &pair(7, b"CXX"))[0], 0);
        for (place, &wanted) in chunk.iter().enumerate() {
            assert_eq!(day.state.table[place * 67 + 10..place * 67 + 14], number_of_day(wanted).to_be_bytes());
        }
    }
}
