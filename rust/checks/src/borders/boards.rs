//! Section 8: the show rule over all its conditions, the order, the question's ranges, moments over month borders.

use crate::panel::{Day, Panel, Question};
use crate::worlds::calendar::{day_of_number, number_of_day};
use crate::worlds::passage::*;
use crate::worlds::state::State;

use super::sizes::plan_body;

/// A row at a journey, date and departure, of no flexible trip.
fn row(journey: u32, date: u32, departure: u32) -> Vec<u8> {
    let mut row = [plan_body(), vec![0]].concat();
    row[24..28].copy_from_slice(&journey.to_be_bytes());
    row[10..14].copy_from_slice(&date.to_be_bytes());
    row[59..62].copy_from_slice(&departure.to_be_bytes()[1..]);
    row
}

fn day_of<'a>(panel: &'a Panel, rows: &[Vec<u8>]) -> Day<'a> {
    Day::of(panel, State { book: Vec::new(), table: rows.concat(), used: 0, rows: rows.len() as u64 })
}

const QUESTION: Question = Question { owner: b"CXX", stop: b"S1", date: 20_160_301, second: 36_000, horizon: 600 };

/// 8.2: every combination of the conditions, each as often decisive alone as it can be; for relief journeys and others, heard of or not.
pub fn show_rule(panel: &Panel) {
    for fortify in [0, 1, 2, 99] {
        for heard in [0, 1] {
            show_rule_of(panel, fortify, heard);
        }
    }
}

fn show_rule_of(panel: &Panel, fortify: u8, heard: u8) {
    let mut rows = Vec::new();
    let mut expected = Vec::new();
    for status in 0..6_u8 {
        for stop_type in 0..3_u8 {
            for flags in 0..24_u8 {
                let (cancelled, monitored, flexible) = (flags % 3, flags / 3 % 2, flags / 6);
                for departure in [35_999, 36_000, 36_600, 36_601] {
                    let mut made = row(rows.len() as u32, 20_160_301, departure);
                    (made[28], made[66]) = (fortify, heard);
                    made[51..55].copy_from_slice(&(u32::from(heard) * 1_456_841_730).to_be_bytes());
                    (made[55], made[62], made[63], made[64], made[65]) =
                        (status, stop_type, cancelled, flexible, monitored);
                    let shown = stop_type != 2
                        && status != 5
                        && (36_000..=36_600).contains(&departure)
                        && (status != 1 || cancelled == 1)
                        && (flexible == 0 || flexible == 1 || flexible == 3 && monitored == 1)
                        && (fortify == 0 || heard == 1);
                    if shown {
                        expected.push((departure, rows.len() as u32));
                    }
                    rows.push(made);
                }
            }
        }
    }
    expected.sort();
    let places: Vec<u32> = expected.iter().map(|(_, place)| *place).collect();
    let mut day = day_of(panel, &rows);
    assert_eq!(day.board(&QUESTION, 2_000).0, places);
    let written = places.len().min(7);
    assert_eq!(day.board(&QUESTION, 7), (places[..written].to_vec(), [0, written as u64, places.len() as u64]));
    for (owner, stop) in
        [(&b"CXY"[..], &b"S1"[..]), (b"CX", b"S1"), (b"CXX ", b"S1"), (b"CXX", b"S"), (b"CXX", b"S2"), (b"CXX", b"S11")]
    {
        assert_eq!(day.board(&Question { owner, stop, ..QUESTION }, 9).1, [0, 0, 0]);
    }
}

/// 8.2: both ends of the horizon, to the second, for horizons from 0 to a day; a departure a day later or earlier is not shown.
pub fn horizon(panel: &Panel) {
    for horizon in [0, 1, 59, 600, 3_600, 86_399, 86_400] {
        for second in [0, 1, 43_200, 86_399] {
            let now = day_of_number(20_160_229) * 86_400 + i64::from(second);
            let end = now + i64::from(horizon);
            for (moment, inside) in
                [(now - 1, false), (now, true), ((now + end) / 2, true), (end, true), (end + 1, false)]
            {
                for date_back in [0, 1] {
                    let day = moment.div_euclid(86_400) - date_back;
                    let of_day = (moment - day * 86_400) as u32;
                    if of_day <= 115_199 {
                        let mut day = day_of(panel, &[row(1, number_of_day(day), of_day)]);
                        let question = Question { date: 20_160_229, second, horizon, ..QUESTION };
                        assert_eq!(day.board(&question, 1).1[2], u64::from(inside), "{second} {horizon} {moment}");
                    }
                }
            }
        }
    }
}

/// 8.1: each part of the question at its borders; 1 goes before 13.
pub fn question(panel: &Panel) {
    let mut day = day_of(panel, &[row(1, 20_160_301, 36_000)]);
    let mut ask = |question: Question| day.board(&question, 2).1[0];
    assert_eq!(ask(QUESTION), 0);
    for (second, number) in [(0, 0), (86_399, 0), (86_400, 13), (u32::MAX, 13)] {
        assert_eq!(ask(Question { second, ..QUESTION }), number);
    }
    for (horizon, number) in [(0, 0), (86_400, 0), (86_401, 13), (u32::MAX, 13)] {
        assert_eq!(ask(Question { horizon, ..QUESTION }), number);
    }
    for length in 0..=12 {
        let text = &b"ABCDEFGHIJKL"[..length];
        let number = if (1..=10).contains(&length) { 0 } else { 13 };
        assert_eq!(ask(Question { owner: text, ..QUESTION }), number);
        assert_eq!(ask(Question { stop: text, ..QUESTION }), number);
    }
    for byte in 0..=255_u8 {
        for place in [0, 1, 9] {
            let mut text = *b"ABCDEFGHIJ";
            text[place] = byte;
            let number = if (32..=126).contains(&byte) { 0 } else { 13 };
            assert_eq!(ask(Question { owner: &text, ..QUESTION }), number);
            assert_eq!(ask(Question { stop: &text, ..QUESTION }), number);
        }
    }
    day.state.table[55] = 6;
    assert_eq!(day.board(&Question { second: 86_400, ..QUESTION }, 2).1, [1, 0, 0]);
}

/// 8.1: a question's date at every month border of the century, and outside it.
pub fn question_dates(panel: &Panel) {
    let mut day = day_of(panel, &[row(1, 20_160_301, 36_000)]);
    let mut ask = |question: Question| day.board(&question, 2).1[0];
    for year in 2000..=2099 {
        for month in 0..=13 {
            let known = (1..=12).contains(&month);
            let first = year * 10_000 + month * 100 + 1;
            let next = if month == 12 { (year + 1) * 10_000 + 101 } else { first + 100 };
            let last = if known { (day_of_number(next) - day_of_number(first)) as u32 } else { 31 };
            for day in [0, 1, last, last + 1] {
                let is_date = known && (1..=last).contains(&day);
                let date = year * 10_000 + month * 100 + day;
                assert_eq!(ask(Question { date, ..QUESTION }), if is_date { 0 } else { 13 }, "{date}");
            }
        }
    }
    for date in [0, 19_991_231, 21_000_101, 20_210_229, u32::MAX] {
        assert_eq!(ask(Question { date, ..QUESTION }), 13);
    }
}

/// 2.5: at every month border of the century the last day's 24:00:00 is the first day's 00:00:00, to the second.
pub fn months(panel: &Panel) {
    for month in 1..1_200 {
        let first = (2000 + month / 12) * 10_000 + (month % 12 + 1) * 100 + 1;
        let last = number_of_day(day_of_number(first) - 1);
        let rows = [
            row(0, last, 86_399),
            row(1, last, 86_400),
            row(2, last, 115_199),
            row(0, first, 0),
            row(1, first, 28_799),
        ];
        let mut day = day_of(panel, &rows);
        let ask = |date, second, horizon| Question { date, second, horizon, ..QUESTION };
        assert_eq!(day.board(&ask(first, 0, 0), 9).0, [1, 3], "{first}");
        assert_eq!(day.board(&ask(last, 86_399, 0), 9).0, [0]);
        assert_eq!(day.board(&ask(last, 86_398, 1), 9).0, [0]);
        assert_eq!(day.board(&ask(last, 86_399, 28_800), 9).0, [0, 1, 3, 2, 4]);
        assert_eq!(day.board(&ask(first, 28_799, 86_400), 9).0, [2, 4]);
        assert_eq!(day.board(&ask(first, 28_800, 57_600), 9).0, [0_u32; 0]);
    }
    let rows = [row(0, 20_991_231, 86_399), row(1, 20_991_231, 86_400), row(2, 20_991_231, 115_199)];
    let question = Question { date: 20_991_231, second: 86_399, horizon: 86_400, ..QUESTION };
    assert_eq!(day_of(panel, &rows).board(&question, 9).0, [0, 1, 2], "into 2100-01-01");
}

/// 8.3: by moment, then key, whatever the order of dates and times; as many places as fit, a prefix of more, and the rest stays.
pub fn order(panel: &Panel) {
    let mut rows: Vec<Vec<u8>> = (0..300)
        .map(|journey: u32| {
            let clock = 36_000 + journey * 7_919 % 23;
            if journey.is_multiple_of(3) {
                row(journey, 20_160_229, clock + 43_200)
            } else {
                row(journey, 20_160_301, clock - 21_600 + journey * 101 % 5)
            }
        })
        .collect();
    rows.sort();
    let moment = |row: &[u8]| day_of_number(Key::read(row).date) * 86_400 + i64::from(number(&row[59..62]));
    let mut expected: Vec<(i64, u32)> =
        rows.iter().enumerate().map(|(place, row)| (moment(row), place as u32)).collect();
    expected.sort();
    let all: Vec<u32> = expected.iter().map(|(_, place)| *place).collect();
    assert!(all.windows(2).any(|pair| pair[0] > pair[1]), "not the keys' order");
    let question = Question { date: 20_160_229, second: 50_000, horizon: 86_400, ..QUESTION };
    let mut day = day_of(panel, &rows);
    for lent in (0..20).chain([63, 64, 65, 255, 256, 257, 299, 300, 301, 500]) {
        let written = lent.min(300);
        assert_eq!(day.board(&question, lent), (all[..written].to_vec(), [0, written as u64, 300]));
    }
}

/// A full table at one stop, and one whose last row alone is at the stop.
pub fn full_table(panel: &Panel) {
    let mut rows: Vec<Vec<u8>> = (0..2_048).map(|journey| row(journey, 20_160_301, 36_600 - journey % 601)).collect();
    let mut day = day_of(panel, &rows);
    let (places, answer) = day.board(&QUESTION, 2_048);
    assert_eq!(answer, [0, 2_048, 2_048]);
    assert_eq!(places[..2], [600, 1_201]);
    assert_eq!(day.board(&QUESTION, 0).1, [0, 0, 2_048]);
    for row in &mut rows[..2_047] {
        row[9] = 0;
        row[2] = b'W';
    }
    assert_eq!(day_of(panel, &rows).board(&QUESTION, 3).0, [2_047]);
    for row in &mut rows[..2_047] {
        row[2] = b'X';
    }
    rows[2_047][2] = b'Y';
    assert_eq!(day_of(panel, &rows).board(&QUESTION, 3).1, [0, 3, 2_047]);
    assert_eq!(day_of(panel, &rows).board(&Question { owner: b"CXY", ..QUESTION }, 3).0, [2_047]);
}
