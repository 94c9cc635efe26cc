//! Every size of the scope, one less, exactly, and one more; and the sizes at which the proved code takes another way.

use crate::lines::*;
use crate::panel::{Day, Panel, Question};
use crate::worlds::calendar::{day_of_number, number_of_day};
use crate::worlds::passage::*;
use crate::worlds::state::State;

const ALL: [usize; 2] = [BOOK, ROWS * ROW];

fn journeys(line: &Line, numbers: impl Iterator<Item = usize>) -> Vec<Line> {
    numbers.map(|number| line.clone().with("VehicleJourneyNumber", number.to_string())).collect()
}

/// So many days from 2000-01-01, in no order of their own.
fn days(count: usize) -> Vec<Line> {
    let first = day_of_number(20_000_101);
    let day = |place: usize| number_of_day(first + (place * 4_001 % count) as i64);
    assert!(!count.is_multiple_of(4_001));
    (0..count).map(|place| Line::validity().with("OperationDate", date(day(place)))).collect()
}

fn one_pair() -> Vec<u8> {
    pair(7, b"CXX")
}

/// 5.1: a dossier of 65,536 bytes is read, one of 65,537 is refused with 2, before its syntax is looked at.
pub fn dossier(panel: &Panel) {
    let (planned, valid, said) =
        (planning(&[Line::pass_time()]), calendar(&[Line::validity()]), message(&[Line::update()]));
    for (size, number) in [(65_535, 0), (65_536, 0), (65_537, 2), (70_000, 2)] {
        let mut day = Day::new(panel, 67, 67);
        let answer = day.open(widened(planned.clone(), size), valid.clone());
        assert_eq!(answer[..4], [number, 0, 0, number / 2]);
        let mut day = Day::new(panel, 67, 67);
        let answer = day.open(planned.clone(), widened(valid.clone(), size));
        assert_eq!(answer[..4], [number, 0, 0, number]);
        let mut day = Day::new(panel, 72, 67);
        let answer = day.message(widened(said.clone(), size), 7, &one_pair());
        assert_eq!(answer[..2], [number, u64::from(number == 0)]);
        let mut early = widened(said.clone(), size + 1);
        early.truncate(size);
        let answer = Day::new(panel, 72, 67).message(early, 7, &one_pair());
        assert_eq!(answer[..2], if number == 0 { [3, size as u64] } else { [2, 0] });
    }
}

/// 1.8: a line of 4,096 bytes with its CR LF is read, one of 4,097 gets 15, whatever it is: the group line, a line with a table's name, a
/// label line and a data line, wanted or not. The last line's end counts, and a fault of syntax anywhere goes before.
pub fn long_lines(panel: &Panel) {
    let names = Line::update().names().join("|");
    let fields = String::from_utf8(Line::update().fields().join(&b'|')).expect("plain");
    let plain = [
        "\\G".to_string(),
        "\\TLINE|".to_string(),
        "\\L".to_string(),
        String::new(),
        "\\TDATEDPASSTIME|".to_string(),
        format!("\\L{names}|x"),
        format!("{fields}|"),
    ];
    for (which, line) in plain.iter().enumerate() {
        for size in [4_000, 4_095, 4_096, 4_097, 4_098, 8_000] {
            let mut lines = plain.clone();
            lines[which] = format!("{line}{}", "x".repeat(size - 2 - line.len()));
            let dossier = format!("{}\r\n", lines.join("\r\n")).into_bytes();
            let expected = if size > 4_096 { [15, which as u64 + 1, 0] } else { [0, 1, 0] };
            let answer = Day::new(panel, 72, 67).message(dossier.clone(), 7, &one_pair());
            assert_eq!(answer[..3], expected, "line {} of {size} bytes", which + 1);
            let opened = Day::new(panel, 67, 67).open(dossier.clone(), calendar(&[]));
            assert_eq!(opened[..4], if size > 4_096 { [15, which as u64 + 1, 0, 1] } else { [0; 4] });
            let opened = Day::new(panel, 67, 67).open(planning(&[]), dossier.clone());
            assert_eq!(opened[..4], if size > 4_096 { [15, which as u64 + 1, 0, 2] } else { [0; 4] });
            let unended = dossier[..dossier.len() - 1].to_vec();
            let answer = Day::new(panel, 72, 67).message(unended, 7, &one_pair());
            assert_eq!(answer[..2], [3, dossier.len() as u64 - 1], "a fault of syntax goes before");
        }
    }
    let two = with_group_line(message(&[Line::update(), Line::update().with("Monitored", "2")]), 4_097);
    assert_eq!(Day::new(panel, 500, 500).message(two, 7, &one_pair())[..3], [15, 1, 0], "15 before 5");
}

/// 4.4, 4.6: 64 pairs are sound and the last of them grants, 65 are not; a part of a pair is not.
pub fn register(panel: &Panel) {
    for pairs in [0, 1, 2, 63, 64, 65] {
        let register = [vec![pair(8, b"CXX"); pairs], vec![one_pair()]].concat().concat();
        let answer = Day::new(panel, 72, 67).message(message(&[Line::update()]), 7, &register);
        assert_eq!(answer[0], u64::from(pairs + 1 > 64), "{pairs} pairs before");
        let without = &register[..pairs * 11];
        let answer = Day::new(panel, 72, 67).message(message(&[Line::update()]), 7, without);
        assert_eq!(answer[..2], if pairs > 64 { [1, 0] } else { [6, 4] });
    }
    for length in [1, 10, 12, 21, 22, 23, 703, 704, 705, 715, 726] {
        let mut register = one_pair();
        register.resize(length, 0);
        let answer = Day::new(panel, 72, 67).message(message(&[]), 7, &register);
        assert_eq!(answer[0], u64::from(length % 11 != 0 || length > 704), "{length} bytes");
    }
}

/// A book of so many plan entries and then updates, one of a message each; and no row in the table.
fn forged(plans: usize, updates: usize, spare: usize) -> State {
    let mut book = Vec::new();
    for place in 0..plans {
        let mut body = plan_body();
        body[24..28].copy_from_slice(&(place as u32).to_be_bytes());
        book.push(KIND_PLAN);
        book.extend(body);
    }
    for place in 0..updates {
        let mut body = update_body();
        body[24..28].copy_from_slice(&(place as u32 % 1_500).to_be_bytes());
        book.push(KIND_STANDING);
        book.extend((place as u32 + 1).to_be_bytes());
        book.push(7);
        book.extend(body);
    }
    let used = book.len() as u64;
    book.resize(book.len() + spare, 0xaa);
    State { book, table: vec![0xbb; ALL[1]], used, rows: 0 }
}

/// What open writes of a line of the planning on the calendar's date.
pub fn plan_body() -> Vec<u8> {
    let mut body = update_body();
    body[51..55].fill(0);
    body[55] = 0;
    body[63..].copy_from_slice(&[1, 0, 0]);
    body
}

/// What a message writes of its line.
pub fn update_body() -> Vec<u8> {
    let text = |bytes: &[u8]| padded(bytes).to_vec();
    let parts = [
        text(b"CXX"),
        20_160_301_u32.to_be_bytes().to_vec(),
        text(b"A031"),
        vec![0, 0, 0, 1, 0],
        text(b"S1"),
        vec![0, 1],
        text(b"CIOS"),
        1_456_841_730_u32.to_be_bytes().to_vec(),
        vec![3],
        36_000_u32.to_be_bytes()[1..].to_vec(),
        36_030_u32.to_be_bytes()[1..].to_vec(),
        vec![1, 255, 255, 255],
    ];
    parts.concat()
}

/// 4.3, 4.6: a book of exactly 294,912 bytes is sound, one with an entry more is not, however much is lent; so are 4,096 updates and
/// 4,401 plan entries, and every mixture that fills the book to its last byte.
pub fn full_book(panel: &Panel) {
    let full = [(0, 4_096), (72, 4_029), (144, 3_962), (2_016, 2_220), (4_320, 76)];
    for (plans, updates) in full {
        for spare in [0, 1, 71, 72, 300] {
            let mut day = Day::of(panel, forged(plans, updates, spare));
            assert_eq!(day.state.used, 294_912);
            assert_eq!(day.message(message(&[]), 7, &one_pair())[..2], [0, 0], "a message without rows");
            assert_eq!(day.message(message(&[Line::update()]), 7, &one_pair())[0], 7);
            assert_eq!(day.withdraw(updates as u32 + 1, 0)[0], 10);
            assert_eq!(day.withdraw(updates as u32, 0)[0], 0);
            let mut day = Day::of(panel, forged(plans, updates + 1, spare));
            assert_eq!(day.withdraw(1, 0)[0], 1, "over the size");
        }
    }
    for (plans, number) in [(4_400, 10), (4_401, 10), (4_402, 1)] {
        let mut day = Day::of(panel, forged(plans, 0, 300));
        assert_eq!(day.withdraw(1, 0)[0], number, "{plans} plan entries");
        let answer = day.message(message(&[Line::update()]), 7, &one_pair());
        assert_eq!(
            answer[0],
            if plans == 4_400 {
                0
            } else if plans == 4_401 {
                7
            } else {
                1
            }
        );
    }
}

/// 7.1: 7 counts what is lent or the size, whichever is less: room for the message exactly, and a byte less.
pub fn book_room(panel: &Panel) {
    for rows in [1, 2, 5] {
        let lines = journeys(&Line::update(), 0..rows);
        for less in [0, 1, 71, 72] {
            let mut state = forged(3, 4, 72 * rows - less);
            state.table.truncate(20 * ROW);
            let mut day = Day::of(panel, state);
            assert_eq!(day.message(message(&lines), 7, &one_pair())[0], if less == 0 { 0 } else { 7 });
        }
    }
    for (updates, rows, number) in
        [(4_095, 1, 0), (4_095, 2, 7), (4_094, 2, 0), (4_096, 1, 7), (3_500, 596, 0), (3_500, 597, 7)]
    {
        for spare in [72 * 700, 294_912 - updates * 72] {
            let mut day = Day::of(panel, forged(0, updates, spare));
            let lines = journeys(&Line::update().short().with("DataOwnerCode", "CXX"), 0..rows);
            assert_eq!(day.message(message(&lines), 7, &one_pair())[0], number, "{updates} and {rows}");
        }
    }
}

/// A table of so many rows with their journeys from 0.
fn table(rows: usize, lent: usize) -> State {
    let mut bytes = Vec::new();
    for place in 0..rows {
        let mut body = plan_body();
        body[24..28].copy_from_slice(&(place as u32).to_be_bytes());
        bytes.extend(body);
        bytes.push(0);
    }
    bytes.resize(lent, 0xbb);
    State { book: vec![0xaa; 72 * 900], table: bytes, used: 0, rows: rows as u64 }
}

/// 4.2, 7.1: 2,048 rows are sound and take updates of passages that they hold; a passage more gets 8, and 2,049 rows are not sound.
pub fn table_room(panel: &Panel) {
    let at = |journey: usize| Line::update().with("VehicleJourneyNumber", journey.to_string());
    for lent in [2_048 * 67, 2_048 * 67 + 66, 2_049 * 67, 2_100 * 67] {
        for (rows, number) in [(2_047, 0), (2_048, 8)] {
            let mut day = Day::of(panel, table(rows, lent));
            let both = [at(rows), at(rows), at(rows - 1), at(rows)];
            assert_eq!(day.message(message(&both), 7, &one_pair())[0], number, "{rows} rows of {lent} bytes");
            let held = [at(0), at(rows - 1), at(0)];
            assert_eq!(day.message(message(&held), 7, &one_pair())[0], 0);
            let two = [at(5_000), at(5_001)];
            assert_eq!(day.message(message(&two), 7, &one_pair())[0], 8);
        }
        let mut day = Day::of(panel, table(2_049, lent.max(2_049 * 67)));
        assert_eq!(day.message(message(&[]), 7, &[])[0], 1);
    }
    for (lent, number) in [(3 * 67, 0), (3 * 67 - 1, 8), (2 * 67, 8), (4 * 67 - 1, 0)] {
        let mut day = Day::of(panel, table(2, lent));
        assert_eq!(day.message(message(&[at(2), at(1), at(2)]), 7, &one_pair())[0], number, "{lent} bytes lent");
    }
}

/// 4.6: counts are within what is lent and within the sizes, whatever a product of them would be.
pub fn counts(panel: &Panel) {
    let whole = forged(1, 2, 5);
    let used = whole.used;
    for count in
        [0, 67, 139, 211, 1, 66, 68, 210, 212, 216, 217, u64::MAX, 1 << 32, used + (1 << 32), used | 1 << 63, 294_913]
    {
        let mut day = Day::of(panel, State { used: count, ..whole.clone() });
        let sound = matches!(count, 0 | 67 | 139 | 211);
        assert_eq!(day.message(message(&[]), 7, &[])[0], u64::from(!sound), "{count} bytes used");
        assert_eq!(day.withdraw(9, 0)[0], if sound { 10 } else { 1 });
    }
    let whole = table(3, 3 * 67 + 66);
    let wraps = u64::MAX / 67;
    for count in [0, 1, 2, 3, 4, wraps, wraps + 1, wraps + 2, wraps + 4, u64::MAX, 1 << 32, 3 | 1 << 63, 2_049] {
        let mut day = Day::of(panel, State { rows: count, ..whole.clone() });
        assert_eq!(day.message(message(&[]), 7, &[])[0], u64::from(count > 3), "{count} rows");
        assert_eq!(day.withdraw(9, 0)[0], if count > 3 { 1 } else { 10 });
        let question = Question { owner: b"CXX", stop: b"S1", date: 20_160_301, second: 0, horizon: 86_400 };
        assert_eq!(day.board(&question, 5).1, if count > 3 { [1, 0, 0] } else { [0, count, count] });
    }
    for count in [0, 1, u64::MAX, 1 << 63] {
        let mut day = Day::new(panel, 66, 67);
        (day.state.used, day.state.rows) = (count, count ^ 5);
        let answer = day.open(planning(&[Line::pass_time()]), calendar(&[Line::validity()]));
        assert_eq!(answer, [7, 0, 0, 0, count, count ^ 5], "open gives any counts back");
    }
}

/// 7.2: 2,048 joined pairs fill the table, 4,401 the book; 7 goes by the pairs before 9 looks at keys, and 9 before 8.
pub fn open_room(panel: &Panel) {
    let times = |count| journeys(&Line::pass_time().short(), 0..count);
    let valid = |count| days(count).into_iter().map(|day| day.with("DataOwnerCode", "D")).collect::<Vec<_>>();
    let cases = [(1_024, 2, 0), (1_025, 2, 8), (683, 3, 8), (2_048, 1, 2), (1, 2_048, 0), (1, 2_049, 8), (2, 1_024, 0)];
    let many =
        [(1, 4_401 - 401, 8), (1_467, 3, 8), (1_468, 3, 7), (489, 9, 8), (163, 27, 8), (31, 142, 7), (1_400, 1, 0)];
    for (times_count, days_count, number) in cases.into_iter().chain(many) {
        for spare in [0, 1, 67] {
            let mut day = Day::new(panel, ALL[0] + spare, ALL[1] + spare);
            let answer = day.open(planning(&times(times_count)), calendar(&valid(days_count)));
            assert_eq!(answer[0], number, "{times_count} pass times on {days_count} days");
        }
    }
    let twice = |mut times: Vec<Line>| {
        times.push(times[0].clone());
        planning(&times)
    };
    let mut day = Day::new(panel, ALL[0], ALL[1]);
    assert_eq!(day.open(twice(times(1_467)), calendar(&valid(3)))[0], 7, "4,404 pairs");
    assert_eq!(day.open(twice(times(1_100)), calendar(&valid(3)))[0], 9, "3,303 pairs");
    assert_eq!(day.open(twice(times(1_100)), calendar(&[]))[0], 0, "no pair");
    for (less, number) in [([0, 0], 0), ([1, 0], 7), ([0, 1], 8), ([1, 1], 7)] {
        let mut day = Day::new(panel, 12 * 67 - less[0], 12 * 67 - less[1]);
        assert_eq!(day.open(planning(&times(4)), calendar(&valid(3)))[0], number);
    }
}

/// As many validities, pass times and message rows as a dossier holds, in an order that is not the keys'.
pub fn most_lines(panel: &Panel) {
    let shuffled =
        |count: usize| journeys(&Line::pass_time().short(), (0..count).map(move |place| place * 7_001 % count));
    for count in [13, 63, 64, 65, 255, 256, 257, 1_000, 1_024, 2_047] {
        let mut day = Day::new(panel, ALL[0], ALL[1]);
        let answer = day.open(planning(&[Line::pass_time()]), calendar(&days(count)));
        assert_eq!(answer[0], 0);
        assert_eq!(answer[5], count as u64);
    }
    for count in [639, 640, 641, 1_350, 1_400, 1_401, 1_700] {
        let mut day = Day::new(panel, ALL[0], ALL[1]);
        let valid = calendar(&[Line::validity().with("DataOwnerCode", "D")]);
        let answer = day.open(planning(&shuffled(count)), valid);
        assert_eq!((answer[0], answer[5]), (0, count as u64), "{count} pass times");
    }
    for count in [302, 303, 304, 700, 701, 760, 780] {
        let mut day = Day::new(panel, ALL[0], ALL[1]);
        let line = Line::update().short().with("DataOwnerCode", "CXX").with("TripStopStatus", "CANCEL");
        let lines = journeys(&line, (0..count).map(|place| place * 7_001 % count));
        assert_eq!(day.message(message(&lines), 7, &one_pair())[..2], [0, 1]);
        assert_eq!(day.state.rows, count as u64);
        let again: Vec<Line> = lines.iter().map(|line| line.clone().with("TripStopStatus", "UNKNOWN")).collect();
        assert_eq!(day.message(message(&again), 7, &one_pair())[..2], [0, 2]);
        assert_eq!(day.withdraw(1, 7)[5], count as u64);
        assert!(day.state.table.chunks(67).take(count).all(|row| row[55] == 2), "as if 1 had never been");
        assert_eq!(day.withdraw(2, 0)[5], 0);
        assert!(day.state.table[..count * 67].iter().all(|&byte| byte == 0), "freed bytes become zero");
    }
}

/// A label line of a thousand columns and more, up to a line's bytes; each wanted one at its far end; a fault's column beyond a byte.
pub fn many_columns(panel: &Panel) {
    for others in [0, 1, 7, 47, 48, 49, 239, 240, 241, 984, 1_000, 1_890] {
        for wanted_first in [true, false] {
            let mut names: Vec<&str> = vec!["x"; others];
            let mut fields: Vec<Vec<u8>> = vec![b"".to_vec(); others];
            let at = if wanted_first { 0 } else { others };
            names.splice(at..at, Line::update().names());
            fields.splice(at..at, Line::update().fields());
            let dossier = |fields: &[Vec<u8>]| {
                let label = format!("\\G\r\n\\TDATEDPASSTIME\r\n\\L{}\r\n", names.join("|"));
                [label.as_bytes(), &fields.join(&b'|'), b"\r\n"].concat()
            };
            let mut day = Day::new(panel, 72, 67);
            assert_eq!(day.message(dossier(&fields), 7, &one_pair())[..2], [0, 1], "{others} others");
            assert_eq!(day.state.book[6..72], update_body());
            fields[at + 15] = b"2".to_vec();
            let answer = Day::new(panel, 72, 67).message(dossier(&fields), 7, &one_pair());
            assert_eq!(answer[..3], [5, 4, at as u64 + 16]);
            fields.pop();
            let answer = Day::new(panel, 72, 67).message(dossier(&fields), 7, &one_pair());
            assert_eq!(answer[..3], [4, 4, 0], "a field too few");
        }
    }
}

/// Sizes at which the proved library takes larger areas: dossiers around 8,192 and 4,096 bytes, 64 entries of a withdrawal.
pub fn areas(panel: &Panel) {
    let (planned, valid, said) =
        (planning(&[Line::pass_time()]), calendar(&[Line::validity()]), message(&[Line::update()]));
    for size in [4_095, 4_096, 4_097, 8_191, 8_192, 8_193] {
        let mut day = Day::new(panel, 500, 500);
        assert_eq!(day.open(widened(planned.clone(), size), valid.clone())[0], 0);
        assert_eq!(day.open(planned.clone(), widened(valid.clone(), size))[0], 0);
        assert_eq!(day.message(widened(said.clone(), size), 7, &one_pair())[0], 0);
    }
    for count in [1, 2, 31, 32, 33, 63, 64, 65, 66] {
        let mut day = Day::new(panel, ALL[0], ALL[1]);
        assert_eq!(day.open(planning(&journeys(&Line::pass_time(), 0..40)), valid.clone())[0], 0);
        let lines = journeys(&Line::update(), (0..count).map(|place| place * 101 % 50));
        assert_eq!(day.message(message(&lines), 7, &one_pair())[1], 1);
        assert_eq!(day.message(message(&lines[..1]), 7, &one_pair())[1], 2);
        let answer = day.withdraw(1, 7);
        assert_eq!((answer[0], answer[5]), (0, 40), "{count} entries");
    }
}

/// 7.4: a withdrawal of every number around the ends of 4,096 messages, by its sender and by another.
pub fn many_messages(panel: &Panel) {
    let mut state = forged(0, 4_096, 40);
    let rows: Vec<u8> = state.book[6..].chunks(72).take(1_500).flat_map(|body| row_of(&body[..66])).collect();
    state.table[..rows.len()].copy_from_slice(&rows);
    state.rows = 1_500;
    let mut day = Day::of(panel, state);
    for number in [0, 1, 2, 255, 256, 257, 2_047, 2_048, 2_049, 4_095, 4_096, 4_097, 4_352, 65_536, 65_537, u32::MAX] {
        let known = (1..=4_096).contains(&number);
        assert_eq!(day.withdraw(number, 8)[0], if known { 12 } else { 10 });
        assert_eq!(day.withdraw(number, 7)[0], if known { 0 } else { 10 });
        assert_eq!(day.withdraw(number, 8)[0], if known { 12 } else { 10 });
        assert_eq!(day.withdraw(number, 0)[0], if known { 11 } else { 10 });
    }
}

/// The row that an update makes of a passage that the table lacks.
fn row_of(body: &[u8]) -> Vec<u8> {
    let mut row = body.to_vec();
    row[63..].copy_from_slice(&[1, 0, 0]);
    row.push(1);
    row
}

/// 7.4: a withdrawal gets 8 where the table lacks a passage that the book has, and has no room: by the size and by what is lent.
pub fn withdrawal_room(panel: &Panel) {
    for (lent, rows, number) in
        [(2_100, 2_048, 8), (2_048, 2_048, 8), (2_100, 2_047, 0), (2_047, 2_047, 8), (5, 5, 8), (6, 5, 0)]
    {
        let mut state = forged(0, 2, 0);
        state.book[72 + 6 + 27] = 0;
        state.table.clear();
        for place in 0..rows {
            let mut row = row_of(&update_body());
            row[24..28].copy_from_slice(&(100 + place as u32).to_be_bytes());
            state.table.extend(row);
        }
        state.rows = rows as u64;
        state.table.resize(lent * 67, 0xbb);
        let before = state.clone();
        let mut day = Day::of(panel, state);
        assert_eq!(day.withdraw(1, 7)[0], number, "{rows} rows of {lent} lent");
        if number == 0 {
            assert_eq!(day.state.rows, rows as u64 + 1);
        }
        let mut held = before;
        held.table[27] = 0;
        assert_eq!(Day::of(panel, held).withdraw(1, 7)[5], rows as u64, "a passage that the table holds needs no room");
    }
}
