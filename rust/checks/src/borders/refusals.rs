//! 7.1: each refusal at each of its causes, and the order in which they are looked for, over all sets of causes.

use crate::lines::*;
use crate::panel::{Day, Panel};
use crate::worlds::passage::*;
use crate::worlds::state::State;

use super::forms::UNKNOWN;
use super::sizes::{plan_body, update_body};

/// The causes in a set, as the bits of its number.
fn has(set: u32, cause: u32) -> bool {
    set >> cause & 1 == 1
}

/// A dossier with the causes of 2, 3, 15, 4 and 5 that a set's five bits say. The lines are right but for the last three.
fn spoiled(build: fn(&[Line]) -> Vec<u8>, line: Line, wrong: &'static str, set: u32) -> Vec<u8> {
    let mut lines = vec![line.clone()];
    if has(set, 4) {
        lines.push(line.clone().with(wrong, ""));
    }
    let mut dossier = build(&lines);
    if has(set, 3) {
        dossier.extend(b"one field\r\n");
    }
    if has(set, 2) {
        dossier.extend(b"\\TLINE\r\n\\Lx\r\n");
        dossier.extend(vec![b'x'; LINE - 1]);
        dossier.extend(b"\r\n");
    }
    if has(set, 1) {
        dossier.extend(b"\\x");
    }
    if has(set, 0) {
        dossier = widened(dossier, 65_537);
    }
    dossier
}

/// The line of a set's cause of 15: behind the lines of other causes, and two of its own table.
fn long_line(set: u32) -> u64 {
    7 + u64::from(has(set, 3)) + u64::from(has(set, 4))
}

/// A message in either form with every set of the causes of 1 to 8, 15 and 18: the first in order is answered.
pub fn message_causes(panel: &Panel) {
    for set in 0..2_048_u32 {
        let known = u32::from(has(set, 10));
        let dossier = spoiled(message, Line::update_in(known), "Monitored", set >> 2 & 31);
        let mut register = pair(if has(set, 7) { 8 } else { 7 }, b"CXX");
        if has(set, 0) {
            register.push(0);
        }
        let mut day = Day::new(panel, if has(set, 8) { 71 } else { 144 }, if has(set, 9) { 66 } else { 67 });
        let stated = if has(set, 1) { UNKNOWN[set as usize % UNKNOWN.len()] } else { known };
        let answer = day.message_in(stated, dossier.clone(), 7, &register);
        let syntax = dossier.len() as u64 - 1;
        let form = if has(set, 6) { 6 } else { 5 };
        let expected = match set.trailing_zeros() {
            0 => [1, 0, 0],
            1 => [18, 0, 0],
            2 => [2, 0, 0],
            3 => [3, syntax, 0],
            4 => [15, long_line(set >> 2), 0],
            5 => [4, form, 0],
            6 => [5, 5, 16],
            7 => [6, 4, 0],
            8 => [7, 0, 0],
            9 => [8, 0, 0],
            _ => [0, 1, 0],
        };
        assert_eq!(answer[..3], expected, "causes {set:011b}");
    }
}

/// Open with every set of the causes of 2 to 5 and 15 in either dossier, then 7, 9 and 8.
pub fn open_causes(panel: &Panel) {
    for set in 0..8_192_u32 {
        let planned = spoiled(planning, Line::pass_time(), "ShowFlexibleTrip", set & 31);
        let mut valid = spoiled(calendar, Line::validity(), "OperationDate", set >> 5 & 31);
        let twice = has(set, 11);
        if twice && set >> 5 & 31 == 0 {
            valid = calendar(&[Line::validity(), Line::validity()]);
        }
        let pairs = if twice { 2 } else { 1 };
        let short = |bit: u32| if has(set, bit) { 1 } else { 0 };
        let mut day = Day::new(panel, pairs * 67 - short(10), pairs * 67 - short(12));
        let (planning_fault, calendar_fault) = (planned.len() as u64 - 1, valid.len() as u64 - 1);
        let answer = day.open(planned, valid);
        let line = |bits: u32| if has(set, bits) { 6 } else { 5 };
        let expected = match set.trailing_zeros() {
            0 => [2, 0, 0, 1],
            1 => [3, planning_fault, 0, 1],
            2 => [15, long_line(set), 0, 1],
            3 => [4, line(4), 0, 1],
            4 => [5, 5, 12, 1],
            5 => [2, 0, 0, 2],
            6 => [3, calendar_fault, 0, 2],
            7 => [15, long_line(set >> 5), 0, 2],
            8 => [4, line(9), 0, 2],
            9 => [5, 5, 3, 2],
            10 => [7, 0, 0, 0],
            11 => [9, 0, 0, 0],
            12 => [8, 0, 0, 0],
            _ => [0, 0, 0, 0],
        };
        assert_eq!(answer[..4], expected, "causes {set:013b}");
    }
}

/// Withdraw: 1, then 10, 12, 11, then 8.
pub fn withdraw_causes(panel: &Panel) {
    let entry = |kind: u8, number: u8, sender| [&[kind, 0, 0, 0, number, sender], &update_body()[..]].concat();
    for set in 0..16_u32 {
        let kind = if has(set, 2) { 3 } else { 2 };
        let book = [entry(kind, 1, 7), entry(2, 2, 9)].concat();
        let mut row = [plan_body(), vec![0]].concat();
        row[0] = b'D';
        let rows = u64::from(has(set, 3));
        let state = State { used: 144 + u64::from(has(set, 0)), book: [book, vec![0; 9]].concat(), table: row, rows };
        let mut day = Day::of(panel, state);
        for (number, sender) in [(1, 7), (1, 0), (1, 9), (1, 1), (3, 7), (0, 0)] {
            let mut tried = day.clone();
            let expected = match () {
                _ if has(set, 0) => 1,
                _ if number != 1 => 10,
                _ if !matches!(sender, 0 | 7) => 12,
                _ if has(set, 2) => 11,
                _ if has(set, 3) => 8,
                _ => 0,
            };
            assert_eq!(tried.withdraw(number, sender)[0], expected, "causes {set:04b}, {number} by {sender}");
        }
        day.state.rows = 0;
    }
}

/// 5.4: the owner of each line, byte for byte; sender 0 gets 6 whatever the register says; a message without rows is taken from anybody.
pub fn owners(panel: &Panel) {
    let said = |owners: &[&str]| {
        let lines: Vec<Line> = owners.iter().map(|owner| Line::update().with("DataOwnerCode", owner)).collect();
        message(&lines)
    };
    let full = "ABCDEFGHIJ";
    type Case<'a> = (&'a [&'a str], u8, Vec<u8>, [u64; 2]);
    let cases: [Case; 12] = [
        (&[full], 7, pair(7, full.as_bytes()), [0, 1]),
        (&[full], 7, pair(7, b"ABCDEFGHIK"), [6, 4]),
        (&[full], 7, pair(7, b"ABCDEFGHI"), [6, 4]),
        (&["ABCDEFGHI"], 7, pair(7, full.as_bytes()), [6, 4]),
        (&["CXX", "CXX", "CXY"], 7, pair(7, b"CXX"), [6, 6]),
        (&["CXX", "GVB", "CXX"], 7, [pair(7, b"GVB"), pair(7, b"CXX")].concat(), [0, 1]),
        (&["CXX", "GVB"], 7, [pair(7, b"GVB"), pair(8, b"CXX")].concat(), [6, 4]),
        (&["CXX"], 0, pair(0, b"CXX"), [6, 4]),
        (&["CXX"], 255, pair(255, b"CXX"), [0, 1]),
        (&["CXX"], 7, Vec::new(), [6, 4]),
        (&[], 0, Vec::new(), [0, 0]),
        (&[], 9, pair(7, b"CXX"), [0, 0]),
    ];
    for (owners, sender, register, expected) in cases {
        let mut day = Day::new(panel, 500, 500);
        assert_eq!(day.message(said(owners), sender, &register)[..2], expected, "{owners:?} from {sender}");
    }
    let mut unpadded = pair(7, b"CXX");
    unpadded[9] = b'x';
    assert_eq!(Day::new(panel, 500, 500).message(said(&["CXX"]), 7, &unpadded)[..2], [6, 4]);
    let split = [&[0; 4][..], &pair(7, b"CXX"), &[0; 7]].concat();
    assert_eq!(Day::new(panel, 500, 500).message(said(&["CXX"]), 7, &split)[..2], [6, 4], "whole pairs are looked at");
}

/// 5.2: a wanted name twice, an optional one too; a field more and one less; the smallest line over several tables; unwanted tables are
/// not looked at.
pub fn forms(panel: &Panel) {
    let names = Line::update().names().join("|");
    let row = String::from_utf8(Line::update().fields().join(&b'|')).expect("plain");
    let ask = |rest: &str| {
        let dossier = format!("\\G\r\n{rest}").into_bytes();
        Day::new(panel, 500, 500).message(dossier, 7, &pair(7, b"CXX"))[..3].to_vec()
    };
    let table = |names: &str, rows: &str| format!("\\TDATEDPASSTIME|x\r\n\\L{names}\r\n{rows}");
    for name in Line::update().names() {
        assert_eq!(ask(&table(&format!("{names}|{name}"), "")), [4, 3, 0], "{name} twice");
        assert_eq!(ask(&table(&format!("{name}|x|{names}"), "")), [4, 3, 0], "{name} twice");
        assert_eq!(
            ask(&table(&names.replacen(name, &format!("{name}x"), 1), ""))[0],
            if Line::update().column(name) > 13 { 0 } else { 4 }
        );
    }
    assert_eq!(ask(&table(&format!("{names}|x|x|"), &format!("{row}||||\r\n"))), [4, 4, 0], "a field more");
    assert_eq!(ask(&table(&format!("{names}|x|x|"), &format!("{row}|||\r\n"))), [0, 1, 0]);
    assert_eq!(ask(&table(&format!("{names}|x|x|"), &format!("{row}||\r\n"))), [4, 4, 0], "a field less");
    assert_eq!(ask(&table(&names, "\r\n")), [4, 4, 0], "an empty line");
    let good = table(&names, &format!("{row}\r\n"));
    let wrong_field = table(&names, &format!("{}\r\n", row.replacen("S1", "", 1)));
    let other = "\\TDATEDPASSTIMES\r\n\\LDataOwnerCode|DataOwnerCode\r\n\r\n|||\r\n";
    assert_eq!(ask(&format!("{good}{other}{good}")), [0, 1, 0]);
    assert_eq!(
        ask(&format!("{wrong_field}{other}{}", table(&names, "x\r\n"))),
        [4, 11, 0],
        "4 in a late line before 5 in an early one"
    );
    assert_eq!(ask(&format!("{good}{wrong_field}{wrong_field}")), [5, 7, 6]);
    assert_eq!(ask(&format!("{good}{}", table("x", ""))), [4, 6, 0], "a late label line");
    assert_eq!(ask("\\TLOCALSERVICEGROUPPASSTIME\r\n\\Lx\r\n"), [0, 0, 0]);
    assert_eq!(ask("\\Tdatedpasstime\r\n\\Lx\r\n"), [0, 0, 0], "case counts");
    assert_eq!(ask("\\T\\iDATEDPASSTIME\r\n\\Lx\r\n"), [0, 0, 0], "names are raw");
}

/// 5.3: of several wrong fields the first in the line's own order, whatever the order of the wanted columns; every two of them.
pub fn first_field(panel: &Panel) {
    let (names, fields) = (Line::update().names(), Line::update().fields());
    for turn in 0..names.len() {
        for (one, other) in [(0, 15), (3, 8), (10, 12), (7, 14), (11, 13)] {
            let place = |wanted: usize| (wanted * 7 + turn) % 16;
            let (mut label, mut line) = (vec![""; 16], vec![Vec::new(); 16]);
            for wanted in 0..16 {
                (label[place(wanted)], line[place(wanted)]) = (names[wanted], fields[wanted].clone());
            }
            (line[place(one)], line[place(other)]) = (Vec::new(), Vec::new());
            let head = format!("\\G\r\n\\TDATEDPASSTIME\r\n\\L{}\r\n", label.join("|"));
            let dossier = [head.as_bytes(), &line.join(&b'|'), b"\r\n"].concat();
            let answer = Day::new(panel, 500, 500).message(dossier, 7, &pair(7, b"CXX"));
            assert_eq!(answer[..3], [5, 4, 1 + place(one).min(place(other)) as u64], "{label:?}");
        }
    }
}

/// Lines far down: an unwanted table of so many empty lines, then one that gets 4, 5 or 6.
pub fn far_lines(panel: &Panel) {
    let wrong = [
        (Line::update().with("Monitored", "2"), [5, 16]),
        (Line::update().with("DataOwnerCode", "GVB"), [6, 0]),
        (Line::update().without("UserStopCode"), [4, 0]),
    ];
    for empty in [0, 244, 245, 246, 247, 248, 249, 250, 251, 252, 253, 4_000, 30_000] {
        for (line, [number, second]) in &wrong {
            let said = message(std::slice::from_ref(line));
            let before = format!("\\G\r\n\\TLINE\r\n\\Lx\r\n{}", "\r\n".repeat(empty));
            let dossier = [before.as_bytes(), &said[4..]].concat();
            let answer = Day::new(panel, 500, 500).message(dossier, 7, &pair(7, b"CXX"));
            let at = empty as u64 + if *number == 4 { 5 } else { 6 };
            assert_eq!(answer[..3], [*number, at, *second], "{empty} empty lines before");
        }
    }
}

/// Small dossiers, and where each is at fault, or at none.
pub const FORMS: [(&str, Option<u64>); 46] = [
    ("", Some(0)),
    ("\\", Some(1)),
    ("\\G", Some(2)),
    ("\\G\r", Some(3)),
    ("\\G\r\n", None),
    ("\\Gx\r\n", None),
    ("x", Some(0)),
    ("\\T", Some(1)),
    ("\\g", Some(1)),
    ("\\G\n", Some(2)),
    ("\\G\rx", Some(3)),
    ("\\G\r\r\n", Some(3)),
    ("\\G\r\nx", Some(4)),
    ("\\G\r\n\r\n", Some(4)),
    ("\\G\r\n\\", Some(5)),
    ("\\G\r\n\\G", Some(5)),
    ("\\G\r\n\\L", Some(5)),
    ("\\G\r\n\\T", Some(6)),
    ("\\G\r\n\\T\r\n", Some(8)),
    ("\\G\r\n\\T\r\n\\T", Some(9)),
    ("\\G\r\n\\T\r\n\r\n", Some(8)),
    ("\\G\r\n\\T\r\nx", Some(8)),
    ("\\G\r\n\\T\r\n\\L\r\n", None),
    ("\\G\r\n\\T\r\n\\L\r\n\\T\r\n\\L\r\n", None),
    ("\\G\r\n\\T\r\n\\L\r\n\\L", Some(13)),
    ("\\G\r\n\\T\r\n\\L\r\n\\G", Some(13)),
    ("\\G\r\n\\T\r\n\\L\r\n\r\n\r\n", None),
    ("\\G\r\n\\T\r\n\\L\r\nx", Some(13)),
    ("\\G\r\n\\T\r\n\\L\r\nx\\T", Some(14)),
    ("\\G\r\n\\T\r\n\\L\r\n|\\T", Some(14)),
    ("\\G\r\n\\T\r\n\\L\r\n\\0\r\n", None),
    ("\\G\r\n\\T\r\n\\L\r\n\\0x", Some(14)),
    ("\\G\r\n\\T\r\n\\L\r\n\\0\\", Some(14)),
    ("\\G\r\n\\T\r\n\\L\r\nx\\0", Some(14)),
    ("\\G\r\n\\T\r\n\\L\r\n\\i\\0", Some(15)),
    ("\\G\r\n\\T\r\n\\L\r\n|\\0|\\0\r\n", None),
    ("\\G\r\n\\T\r\n\\L\r\n\\r\\n\\i\\p\r\n", None),
    ("\\G\r\n\\T\r\n\\L\r\n\\R", Some(13)),
    ("\\G\r\n\\T\r\n\\L\r\n\\1", Some(13)),
    ("\\G\\0\r\n", None),
    ("\\Gx\\0\r\n", Some(4)),
    ("\\G|\\0|\r\n\\T\\0\r\n\\L\\0|\\0\r\n", None),
    ("\\G\\x\r\n", Some(3)),
    ("\\G\t\r\n", Some(2)),
    ("\\G\u{7f}\u{80}\r\n", None),
    ("\\G\r\n\\T\r\n\\L\r\n\\0\rx", Some(15)),
];

/// Section 1: the form, by small dossiers and where each is at fault, or at none.
pub fn syntax(panel: &Panel) {
    for (dossier, fault) in FORMS {
        let answer = Day::new(panel, 0, 0).message(dossier.as_bytes().to_vec(), 7, &[]);
        assert_eq!(answer[..2], fault.map_or([0, 0], |at| [3, at]), "{dossier:?}");
        let answer = Day::new(panel, 0, 0).open(dossier.as_bytes().to_vec(), b"\\G\r\n".to_vec());
        assert_eq!(answer[..4], fault.map_or([0, 0, 0, 0], |at| [3, at, 0, 1]), "{dossier:?}");
        let answer = Day::new(panel, 0, 0).open(b"\\G\r\n".to_vec(), dossier.as_bytes().to_vec());
        assert_eq!(answer[..4], fault.map_or([0, 0, 0, 0], |at| [3, at, 0, 2]), "{dossier:?}");
    }
    let whole = message(&[Line::update(), Line::update().with("UserStopCode", "\\p\\i")]);
    for length in 0..whole.len() {
        let answer = Day::new(panel, 500, 500).message(whole[..length].to_vec(), 7, &pair(7, b"CXX"));
        let ends = whole[..length].ends_with(b"\r\n") && !whole[..length].ends_with(b"PASSTIME\r\n");
        assert_eq!(answer[..2], if ends { [0, u64::from(length > 300)] } else { [3, length as u64] }, "{length} bytes");
    }
}

/// Long quiet fields before every kind of fault, at every distance from a block's border.
pub fn far_faults(panel: &Panel) {
    for quiet in (0..40).chain([63, 64, 65, 127, 128, 255, 4_095]) {
        for (tail, at) in
            [("\n", 0), ("\\x", 1), ("\u{1f}", 0), ("\rx", 1), ("\\0", 1), ("\0", 0), ("", 0), ("\\", 1), ("\r", 1)]
        {
            let mut dossier = b"\\Gx".to_vec();
            dossier.extend(std::iter::repeat_n(b'~', quiet));
            dossier.extend(tail.as_bytes());
            let answer = Day::new(panel, 0, 0).message(dossier, 7, &[]);
            assert_eq!(answer[..2], [3, 3 + quiet as u64 + at], "{quiet} before {tail:?}");
        }
    }
}

/// 7.2: which pass times and validities join: owner and service level equal to their last byte, twice where they stand twice.
pub fn joins(panel: &Panel) {
    let texts = ["ABCDEFGHI1", "ABCDEFGHI2", "ABCDEFGHI", "A"];
    for owner in texts {
        for level in texts {
            let time = Line::pass_time().with("DataOwnerCode", owner).with("LocalServiceLevelCode", level);
            for other_owner in texts {
                for other_level in texts {
                    let valid =
                        Line::validity().with("DataOwnerCode", other_owner).with("LocalServiceLevelCode", other_level);
                    let mut day = Day::new(panel, 200, 200);
                    let answer = day.open(planning(std::slice::from_ref(&time)), calendar(&[valid]));
                    let joined = u64::from(owner == other_owner && level == other_level);
                    assert_eq!(answer, [0, 0, 0, 0, 67 * joined, joined]);
                }
            }
        }
    }
    let level = |name: &str| Line::pass_time().with("LocalServiceLevelCode", name);
    let valid = |name: &str, day: &str| Line::validity().with("LocalServiceLevelCode", name).with("OperationDate", day);
    let open = |times: &[Line], days: &[Line]| Day::new(panel, 2_000, 2_000).open(planning(times), calendar(days))[0];
    assert_eq!(open(&[level("v"), level("w")], &[valid("v", "2016-03-01"), valid("w", "2016-03-01")]), 9);
    assert_eq!(open(&[level("v"), level("w")], &[valid("v", "2016-03-01"), valid("w", "2016-03-02")]), 0);
    assert_eq!(open(&[level("v"), level("v")], &[valid("w", "2016-03-01")]), 0, "equal pass times that nothing joins");
    assert_eq!(open(&[level("v")], &[valid("v", "2016-03-01"), valid("v", "2016-03-01")]), 9);
    let later = Line::pass_time().with("TargetDepartureTime", "11:00:00").with("DestinationCode", "X");
    assert_eq!(open(&[Line::pass_time(), later], &[Line::validity()]), 9, "one key, whatever else differs");
    for name in
        ["LinePlanningNumber", "VehicleJourneyNumber", "FortifyOrderNumber", "UserStopCode", "UserStopOrderNumber"]
    {
        assert_eq!(open(&[Line::pass_time(), Line::pass_time().with(name, "2")], &[Line::validity()]), 0, "{name}");
    }
}

/// 7.2: the plan by key in book and table, whatever the order of the calendar.
pub fn joined(panel: &Panel) {
    let mut day = Day::new(panel, 300, 300);
    let days = ["2016-03-02", "2016-02-29", "2016-03-01"].map(|day| Line::validity().with("OperationDate", day));
    assert_eq!(day.open(planning(&[Line::pass_time()]), calendar(&days)), [0, 0, 0, 0, 201, 3]);
    for (place, date) in [20_160_229_u32, 20_160_301, 20_160_302].into_iter().enumerate() {
        let mut body = plan_body();
        body[10..14].copy_from_slice(&date.to_be_bytes());
        assert_eq!(day.state.book[place * 67..][..67], [vec![KIND_PLAN], body.clone()].concat());
        assert_eq!(day.state.table[place * 67..][..67], [body, vec![0]].concat());
    }
}
