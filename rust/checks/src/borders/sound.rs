//! 4.5, 4.6: what is sound, by kind of body and by field.

use std::collections::BTreeMap;

use crate::lines::{message, pair};
use crate::panel::{Day, Panel, Question};
use crate::worlds::calendar::day_of_number;
use crate::worlds::passage::*;
use crate::worlds::state::State;

use super::sizes::{plan_body, update_body};

/// Where a body stands.
#[derive(Clone, Copy, Debug, PartialEq, Eq, PartialOrd, Ord)]
enum Kind {
    Plan,
    Standing,
    Withdrawn,
    Unheard,
    Heard,
}

const KINDS: [Kind; 5] = [Kind::Plan, Kind::Standing, Kind::Withdrawn, Kind::Unheard, Kind::Heard];

impl Kind {
    fn is_row(self) -> bool {
        matches!(self, Kind::Unheard | Kind::Heard)
    }

    /// A body in range of this kind.
    fn body(self) -> Vec<u8> {
        match self {
            Kind::Plan | Kind::Unheard => plan_body(),
            Kind::Standing | Kind::Withdrawn => update_body(),
            Kind::Heard => [&update_body()[..63], &[1, 0, 0]].concat(),
        }
    }

    /// The body as an entry or row; updates as message 1.
    fn entry(self, body: &[u8]) -> Vec<u8> {
        match self {
            Kind::Plan => [&[1], body].concat(),
            Kind::Standing => [&[2, 0, 0, 0, 1, 7], body].concat(),
            Kind::Withdrawn => [&[3, 0, 0, 0, 1, 7], body].concat(),
            Kind::Unheard => [body, &[0]].concat(),
            Kind::Heard => [body, &[1]].concat(),
        }
    }
}

/// Whether every call takes these bytes for sound: a message and a withdrawal both, a board the table.
pub fn is_sound(panel: &Panel, book: &[u8], table: &[u8]) -> bool {
    let (used, rows) = (book.len() as u64, (table.len() / ROW) as u64);
    let mut day = Day::of(panel, State { book: book.to_vec(), table: table.to_vec(), used, rows });
    let question = Question { owner: b"CXX", stop: b"S1", date: 20_160_301, second: 0, horizon: 86_400 };
    let sound = day.message(message(&[]), 7, &pair(7, b"CXX"))[0] == 0;
    assert_eq!(day.withdraw(1_000, 0)[0], if sound { 10 } else { 1 });
    if book.is_empty() {
        assert_eq!(day.board(&question, 3).1[0], u64::from(!sound));
    }
    sound
}

fn body_is_sound(panel: &Panel, kind: Kind, body: &[u8]) -> bool {
    let entry = kind.entry(body);
    if kind.is_row() {
        is_sound(panel, &[], &entry)
    } else {
        is_sound(panel, &entry, &[])
    }
}

fn set(body: &mut [u8], at: usize, width: usize, value: u32) {
    body[at..at + width].copy_from_slice(&value.to_be_bytes()[4 - width..]);
}

fn with_number(kind: Kind, at: usize, width: usize, value: u32) -> Vec<u8> {
    let mut body = kind.body();
    set(&mut body, at, width, value);
    body
}

/// Every number field at its borders, in every kind of body.
pub fn numbers(panel: &Panel) {
    for kind in KINDS {
        let check = |at, width, value, sound: bool| {
            let body = with_number(kind, at, width, value);
            assert_eq!(body_is_sound(panel, kind, &body), sound, "{kind:?} byte {at} {value}");
        };
        for (at, width, most) in [(24, 4, 999_999), (28, 1, 99), (39, 2, 999)] {
            for value in [0, 1, most - 1, most] {
                check(at, width, value, true);
            }
            check(at, width, most + 1, false);
            check(at, width, u32::MAX, false);
        }
        let told = matches!(kind, Kind::Standing | Kind::Withdrawn | Kind::Heard);
        for (stamp, given) in [
            (0, false),
            (1, false),
            (946_634_399, false),
            (946_634_400, true),
            (946_684_800, true),
            (4_102_444_799, true),
            (4_102_495_199, true),
            (4_102_495_200, false),
            (u32::MAX, false),
        ] {
            check(51, 4, stamp, if told { given } else { stamp == 0 });
        }
    }
}

/// A date at every month border of the century, in every kind of body.
pub fn dates(panel: &Panel) {
    let mut months: Vec<(u32, u32)> = (2000..2100).flat_map(|year| (1..=12).map(move |month| (year, month))).collect();
    months.extend([(1999, 12), (2100, 1), (2100, 2), (0, 1), (2016, 0), (2016, 13), (429_496, 1)]);
    for (year, month) in months {
        let inside = (2000..2100).contains(&year) && (1..=12).contains(&month);
        let next = if month == 12 { (year + 1) * 10_000 + 101 } else { year * 10_000 + (month + 1) * 100 + 1 };
        let last =
            if inside { (day_of_number(next) - day_of_number(year * 10_000 + month * 100 + 1)) as u32 } else { 31 };
        for day in [0, 1, 28, last, last + 1, 99] {
            let number = year * 10_000 + month * 100 + day;
            let kinds = if year % 10 == 0 || month == 2 { &KINDS[..] } else { &KINDS[3..4] };
            for &kind in kinds {
                let sound = inside && (1..=last).contains(&day);
                assert_eq!(body_is_sound(panel, kind, &with_number(kind, 10, 4, number)), sound, "{kind:?} {number}");
            }
        }
    }
}

/// Times by stop type: to 115,199; missing only as an arrival at FIRST and a departure at LAST.
pub fn times(panel: &Panel) {
    for kind in KINDS {
        for stop_type in 0..=3 {
            for arrival in [0, 86_400, 115_199, 115_200, 16_777_214, NO_TIME] {
                for departure in [0, 115_199, 115_200, 16_777_214, NO_TIME] {
                    let mut body = with_number(kind, 62, 1, stop_type);
                    set(&mut body, 56, 3, arrival);
                    set(&mut body, 59, 3, departure);
                    let sound = stop_type <= 2
                        && (arrival <= 115_199 || arrival == NO_TIME && stop_type == 0)
                        && (departure <= 115_199 || departure == NO_TIME && stop_type == 2);
                    assert_eq!(body_is_sound(panel, kind, &body), sound, "{kind:?} {stop_type} {arrival} {departure}");
                }
            }
        }
    }
}

/// Codes: how many of all 256 bytes are sound, by field and kind of body.
pub fn codes(panel: &Panel) {
    let sound = |kind, at| {
        let all = (0..=255).filter(|&value| body_is_sound(panel, kind, &with_number(kind, at, 1, value)));
        all.collect::<Vec<u32>>()
    };
    for kind in KINDS {
        let update = matches!(kind, Kind::Standing | Kind::Withdrawn);
        let plan = kind == Kind::Plan;
        let flags: &[u32] = if update { &[0, 1, 255] } else { &[0, 1] };
        let shown: &[u32] = if update { &[0, 1, 2, 255] } else { &[0, 1, 2] };
        assert_eq!(sound(kind, 55), if plan { vec![0] } else { (0..=5).collect::<Vec<_>>() }, "{kind:?} status");
        assert_eq!(sound(kind, 62), [0, 1, 2], "{kind:?} stop type");
        assert_eq!(sound(kind, 63), if plan { &[1] } else { shown }, "{kind:?} show cancelled");
        assert_eq!(sound(kind, 64), if update { [1, 2, 3, 255] } else { [0, 1, 2, 3] }, "{kind:?} flexible");
        assert_eq!(sound(kind, 65), if plan { &[0] } else { flags }, "{kind:?} monitored");
        assert_eq!(sound(kind, 28), (0..=99).collect::<Vec<_>>(), "{kind:?} fortify number");
    }
    let heard =
        |body: &[u8]| (0..=255).filter(|&heard| is_sound(panel, &[], &[body, &[heard]].concat())).collect::<Vec<_>>();
    assert_eq!(heard(&Kind::Unheard.body()), [0]);
    assert_eq!(heard(&Kind::Heard.body()), [1]);
    let head = |at: usize, entry: Vec<u8>| {
        let changed = |value| {
            let mut entry = entry.clone();
            entry[at] = value;
            entry
        };
        (0..=255).filter(|&value| is_sound(panel, &changed(value), &[])).collect::<Vec<u8>>()
    };
    assert_eq!(head(0, Kind::Plan.entry(&plan_body())), [1]);
    assert_eq!(head(0, Kind::Standing.entry(&update_body())), [2, 3]);
    for at in 1..5 {
        assert_eq!(head(at, Kind::Standing.entry(&update_body())), [u8::from(at == 4)], "a first message's number");
    }
    assert_eq!(head(5, Kind::Withdrawn.entry(&update_body())), (1..=255).collect::<Vec<_>>());
}

/// Texts: 1 to 10 bytes of 32 to 126, then only zero bytes; every byte of every text, in every kind of body.
pub fn texts(panel: &Panel) {
    for kind in KINDS {
        for at in [0, 14, 29, 41] {
            for length in 0..=10 {
                for (place, value) in
                    (0..10).flat_map(|place| [0, 31, 32, 126, 127, 128, 255].map(|value| (place, value)))
                {
                    let mut text = padded(&b"ABCDEFGHIJ"[..length]);
                    text[place] = value;
                    let kept = text.iter().position(|&byte| byte == 0).unwrap_or(10);
                    let sound = kept > 0
                        && text[..kept].iter().all(|byte| (32..=126).contains(byte))
                        && text[kept..].iter().all(|&byte| byte == 0);
                    let mut body = kind.body();
                    body[at..at + 10].copy_from_slice(&text);
                    assert_eq!(body_is_sound(panel, kind, &body), sound, "{kind:?} {at} {text:?}");
                }
            }
        }
    }
}

/// Every byte of a small day's book and table changed to every other value: one place unsound, all sides agree on which are.
pub fn one_byte(panel: &Panel) {
    let second = |body: Vec<u8>| {
        let mut body = body;
        body[0] = b'D';
        body
    };
    let [first, last] = [0, 2].map(|stop_type| {
        let mut body = plan_body();
        body[62] = stop_type;
        let missing = if stop_type == 0 { 56 } else { 59 };
        set(&mut body, missing, 3, NO_TIME);
        body
    });
    let update = |kind, number, sender| [&[kind, 0, 0, 0, number, sender], &update_body()[..]].concat();
    let book = [
        Kind::Plan.entry(&first),
        Kind::Plan.entry(&second(last.clone())),
        update(2, 1, 7),
        update(2, 1, 7),
        update(3, 2, 8),
        update(2, 3, 7),
    ]
    .concat();
    let table = [Kind::Unheard.entry(&first), Kind::Heard.entry(&second(Kind::Heard.body()))].concat();
    assert!(is_sound(panel, &book, &table));
    let mut sound: BTreeMap<bool, usize> = BTreeMap::new();
    for place in 0..book.len() + table.len() {
        for value in 0..=255 {
            let mut both = [&book[..], &table].concat();
            both[place] = value;
            let (book, table) = both.split_at(book.len());
            let table_alone = place >= book.len();
            *sound.entry(is_sound(panel, if table_alone { &[] } else { book }, table)).or_default() += 1;
        }
    }
    assert!(sound[&true] > 1_000 && sound[&false] > 100_000, "{sound:?}");
}

/// Two passages whose keys differ in one place only, from the least to the most: by a byte of each text, by each number.
pub fn close_keys() -> Vec<(Vec<u8>, Vec<u8>)> {
    let mut low = plan_body();
    for at in [0, 14, 29] {
        low[at..at + 10].copy_from_slice(b"ABCDEFGHIJ");
    }
    let mut pairs = Vec::new();
    for at in (0..10).chain(14..24).chain(29..39) {
        let mut high = low.clone();
        high[at] += 1;
        pairs.push((low.clone(), high));
    }
    for (at, width, values) in [
        (10, 4, vec![20_160_302, 20_160_401, 20_170_301]),
        (24, 4, vec![2, 257, 65_537, 999_999]),
        (28, 1, vec![1, 99]),
        (39, 2, vec![2, 256, 257, 999]),
    ] {
        for value in values {
            let mut high = low.clone();
            set(&mut high, at, width, value);
            pairs.push((low.clone(), high));
        }
    }
    let shorter = |at: usize| {
        let mut low = low.clone();
        low[at + 9] = 0;
        low
    };
    pairs.extend([0, 14, 29].map(|at| (shorter(at), low.clone())));
    pairs
}

/// 4.2, 4.3: keys strictly rising, at the first pair of neighbours and at later ones, by every byte of the key.
pub fn rising(panel: &Panel) {
    for (low, high) in close_keys() {
        assert!(low[..41] < high[..41]);
        for kind in [Kind::Plan, Kind::Unheard] {
            let sound = |bodies: &[&Vec<u8>]| {
                let entries: Vec<u8> = bodies.iter().flat_map(|body| kind.entry(body)).collect();
                if kind.is_row() {
                    is_sound(panel, &[], &entries)
                } else {
                    is_sound(panel, &entries, &[])
                }
            };
            let mut lowest = low.clone();
            lowest[..10].copy_from_slice(&padded(b"A"));
            assert!(sound(&[&low, &high]) && sound(&[&lowest, &low, &high]));
            assert!(!sound(&[&high, &low]) && !sound(&[&lowest, &high, &low]));
            assert!(!sound(&[&low, &low]) && !sound(&[&low, &high, &high]) && !sound(&[&low, &low, &high]));
        }
    }
}

/// 4.3: numbers begin at 1 and rise by one; the entries of a message share number, sender and kind; plan entries come first.
pub fn messages(panel: &Panel) {
    let update = |(number, sender, kind): (u32, u8, u8)| {
        [&[kind], &number.to_be_bytes()[..], &[sender], &update_body()].concat()
    };
    type Case<'a> = (&'a [(u32, u8, u8)], bool);
    let cases: [Case; 20] = [
        (&[(1, 7, 2)], true),
        (&[(0, 7, 2)], false),
        (&[(2, 7, 2)], false),
        (&[(1, 7, 2), (1, 7, 2)], true),
        (&[(1, 7, 3), (1, 7, 3)], true),
        (&[(1, 7, 2), (1, 8, 2)], false),
        (&[(1, 7, 2), (1, 7, 3)], false),
        (&[(1, 7, 3), (1, 7, 2)], false),
        (&[(1, 7, 2), (2, 8, 3)], true),
        (&[(1, 7, 2), (2, 7, 2), (2, 7, 2), (3, 7, 2)], true),
        (&[(1, 7, 2), (3, 7, 2)], false),
        (&[(1, 7, 2), (0, 7, 2)], false),
        (&[(1, 7, 2), (2, 7, 2), (1, 7, 2)], false),
        (&[(1, 7, 2), (2, 7, 2), (4, 7, 2)], false),
        (&[(1, 7, 2), (2, 7, 2), (2, 7, 3)], false),
        (&[(1, 7, 2), (2, 7, 2), (2, 9, 2)], false),
        (&[(1, 7, 2), (u32::MAX, 7, 2)], false),
        (&[(1, 0, 2)], false),
        (&[(1, 7, 2), (2, 0, 3)], false),
        (&[(1, 255, 2), (2, 1, 2)], true),
    ];
    for (updates, sound) in cases {
        let book: Vec<u8> = updates.iter().copied().flat_map(update).collect();
        assert_eq!(is_sound(panel, &book, &[]), sound, "{updates:?}");
        let planned = [Kind::Plan.entry(&plan_body()), book.clone()].concat();
        assert_eq!(is_sound(panel, &planned, &[]), sound, "behind a plan: {updates:?}");
        let behind = [book, Kind::Plan.entry(&plan_body())].concat();
        assert!(!is_sound(panel, &behind, &[]), "a plan entry behind an update");
    }
}

/// 4.6: book and table need not agree, and a call checks only what it is lent: a board never the book.
pub fn lent_only(panel: &Panel) {
    let table = Kind::Heard.entry(&Kind::Heard.body());
    let state = State { book: vec![9; 30], table: table.clone(), used: 30, rows: 1 };
    let mut day = Day::of(panel, state);
    let question = Question { owner: b"CXX", stop: b"S1", date: 20_160_301, second: 0, horizon: 86_400 };
    assert_eq!(day.board(&question, 1), (vec![0], [0, 1, 1]));
    assert_eq!(day.message(message(&[]), 7, &[])[0], 1);
    assert!(is_sound(panel, &Kind::Plan.entry(&plan_body()), &[]), "a plan that the table lacks");
    assert!(is_sound(panel, &[], &table), "a row that the book lacks");
    let state = State { book: Vec::new(), table: [table.clone(), vec![9; 66]].concat(), used: 0, rows: 1 };
    assert_eq!(Day::of(panel, state).withdraw(1, 0)[0], 10, "bytes behind the rows are not looked at");
}
