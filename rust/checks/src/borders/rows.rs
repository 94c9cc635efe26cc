//! Section 6 and 7.4: the row rule, by message and by withdrawal; keys that differ in one byte.

use crate::lines::*;
use crate::panel::{Day, Panel, Question};
use crate::worlds::columns::SHOW_CANCELLED;
use crate::worlds::fields::STATUSES;
use crate::worlds::passage::*;
use crate::worlds::state::State;

use super::sizes::{plan_body, update_body};
use super::sound::close_keys;

/// Table 17, copied from the paper once more.
const TABLE_17: [&str; 6] = ["NJJJJJ", "JJNJJJ", "NJJJJJ", "NJJJJJ", "NJJNJJ", "NNNNJJ"];

fn after(held: usize, said: usize) -> u8 {
    (if TABLE_17[held].as_bytes()[said] == b'J' { said } else { held }) as u8
}

fn of_status(status: usize) -> Line {
    Line::update().with("TripStopStatus", STATUSES[status])
}

fn ours() -> Vec<u8> {
    pair(7, b"CXX")
}

/// All 36 cells: on a held row, within one message, and worked out again from the book.
pub fn status(panel: &Panel) {
    for held in 0..6 {
        for said in 0..6 {
            let mut row = [&update_body()[..63], &[1, 0, 0, 1]].concat();
            row[55] = held as u8;
            let state = State { book: vec![0xaa; 300], table: row, used: 0, rows: 1 };
            let mut day = Day::of(panel, state);
            assert_eq!(day.message(message(&[of_status(said)]), 7, &ours())[0], 0);
            assert_eq!(day.state.table[55], after(held, said), "{held} then {said}");
            let mut day = Day::new(panel, 1_000, 67);
            assert_eq!(day.message(message(&[of_status(held), of_status(said)]), 7, &ours())[0], 0);
            let first = after(0, held);
            assert_eq!(day.state.table[55], after(first.into(), said), "a new passage, {held} then {said}");
            for third in 0..6 {
                let mut day = Day::new(panel, 1_000, 67);
                for status in [third, held, third, said] {
                    assert_eq!(day.message(message(&[of_status(status)]), 7, &ours())[0], 0);
                }
                assert_eq!((day.withdraw(1, 0)[0], day.withdraw(3, 7)[0]), (0, 0));
                assert_eq!(day.state.table[55], after(first.into(), said), "without {third}");
            }
        }
    }
}

/// 6.1: each optional of 255 leaves what is held, each other content is taken; all other fields are the update's whatever the status.
pub fn optionals(panel: &Panel) {
    let flexible: &[&str] = &["\\0", "TRUE", "FALSE", "REALTIME"];
    optionals_of(panel, 0, [&["\\0", "0", "1"], flexible, &["\\0", "0", "1"]]);
    optionals_of(panel, 1, [&["\\0", "false", "true", "message"], flexible, &["\\0", "false", "true"]]);
}

/// In this form, the words of each optional column, after no content.
fn optionals_of(panel: &Panel, form: u32, words: [&[&str]; 3]) {
    let column = [SHOW_CANCELLED[form as usize], "ShowFlexibleTrip", "Monitored"];
    for place in 0..3 {
        for held in 0..[3, 4, 2][place] {
            for (index, word) in words[place].iter().enumerate() {
                let mut row = [&update_body()[..63], &[1, 0, 0, 1]].concat();
                row[63 + place] = held;
                let mut day = Day::of(panel, State { book: vec![0; 72], table: row.clone(), used: 0, rows: 1 });
                let line = Line::update_in(form)
                    .with("TripStopStatus", "PLANNED")
                    .with(column[place], word)
                    .with("DestinationCode", "Z")
                    .with("ExpectedArrivalTime", "\\0");
                let line = line.with("JourneyStopType", "FIRST").with("ExpectedDepartureTime", "31:59:59");
                let line = line.with("LastUpdateTimeStamp", "2000-01-01T00:00:00+14:00");
                assert_eq!(day.message_in(form, message(&[line]), 7, &ours())[0], 0);
                let said = if place == 1 { index as u8 } else { (index as u8).wrapping_sub(1) };
                row[63 + place] = if index == 0 { held } else { said };
                row[41..51].copy_from_slice(&padded(b"Z"));
                row[51..55].copy_from_slice(&946_634_400_u32.to_be_bytes());
                row[56..63].copy_from_slice(&[255, 255, 255, 1, 193, 255, 0]);
                assert_eq!(day.state.table, row, "{} {held} then {word}", column[place]);
            }
        }
    }
}

/// 6.2: a passage that the table lacks; and one that only the plan has told of.
pub fn new_rows(panel: &Panel) {
    let mut day = Day::new(panel, 600, 300);
    assert_eq!(day.message(message(&[of_status(0)]), 7, &ours())[5], 1);
    let mut row = [&update_body()[..63], &[1, 0, 0, 1]].concat();
    row[55] = 0;
    assert_eq!(day.state.table[..67], row);
    let mut day = Day::new(panel, 600, 300);
    let flexible = Line::pass_time().with("ShowFlexibleTrip", "REALTIME");
    assert_eq!(day.open(planning(&[flexible]), calendar(&[Line::validity()]))[0], 0);
    assert_eq!(day.message(message(&[of_status(1).with("Monitored", "1")]), 7, &ours())[5], 1);
    (row[55], row[64], row[65]) = (1, 3, 1);
    assert_eq!(day.state.table[..67], row);
    assert_eq!(day.withdraw(1, 7)[5], 1);
    assert_eq!((day.state.table[64], day.state.table[66], day.state.table[55]), (3, 0, 0), "the plan's row again");
}

fn text(bytes: &[u8]) -> Vec<u8> {
    unpadded(bytes).to_vec()
}

/// The line that says something of the passage with this key.
fn about(body: &[u8]) -> Line {
    let key = Key::read(body);
    Line::update()
        .with("DataOwnerCode", text(&key.owner))
        .with("OperationDate", date(key.date))
        .with("LinePlanningNumber", text(&key.line))
        .with("VehicleJourneyNumber", key.journey.to_string())
        .with("FortifyOrderNumber", key.fortify.to_string())
        .with("UserStopCode", text(&key.stop))
        .with("UserStopOrderNumber", key.order.to_string())
}

/// Two passages whose keys differ in one byte are two: a message changes the one it names, a withdrawal brings that one back, and a
/// board at the one's stop does not show the other.
pub fn close(panel: &Panel) {
    for (low, high) in close_keys() {
        let table: Vec<u8> = [&low, &high].iter().flat_map(|body| [&body[..], &[0]].concat()).collect();
        let book: Vec<u8> = [&low, &high].iter().flat_map(|body| [&[1], &body[..]].concat()).collect();
        let before =
            State { used: 134, rows: 2, book: [book, vec![0; 500]].concat(), table: [table, vec![0; 500]].concat() };
        let register: Vec<u8> = [&low, &high].iter().flat_map(|body| pair(7, unpadded(&body[..10]))).collect();
        for (place, named) in [&low, &high].into_iter().enumerate() {
            let mut day = Day::of(panel, before.clone());
            assert_eq!(day.message(message(&[about(named)]), 7, &register)[5], 2);
            let other = (1 - place) * 67;
            assert_eq!(day.state.table[other..other + 67], before.table[other..other + 67], "the other row stays");
            assert_eq!((day.state.table[place * 67 + 55], day.state.table[place * 67 + 66]), (3, 1));
            shown_alone(&mut day, named, place as u32, &low, &high);
            assert_eq!(day.withdraw(1, 7)[5], 2);
            assert_eq!(day.state.table, before.table, "as it was");
        }
        leaves_alone(panel, &low, &high, &register);
    }
}

/// A board at the named passage's stop, for a time that both would be shown at, shows it, and the other only where owner and stop are equal
/// and it is no relief journey that nobody told of.
fn shown_alone(day: &mut Day, named: &[u8], place: u32, low: &[u8], high: &[u8]) {
    let key = Key::read(named);
    let (owner, stop) = (text(&key.owner), text(&key.stop));
    let question = Question { owner: &owner, stop: &stop, date: key.date, second: 0, horizon: 86_400 };
    let same_stop = low[..10] == high[..10] && low[29..39] == high[29..39] && low[10..14] == high[10..14];
    let other = &day.state.table[(1 - place as usize) * 67..][..67];
    let both = same_stop && (other[28] == 0 || other[66] == 1);
    let (places, _) = day.board(&question, 3);
    assert_eq!(places, if both { vec![0, 1] } else { vec![place] });
}

/// Without a plan the named passage leaves on a withdrawal, and the other stays with every byte.
fn leaves_alone(panel: &Panel, low: &[u8], high: &[u8], register: &[u8]) {
    for (named, other) in [(low, high), (high, low)] {
        let mut day = Day::new(panel, 500, 200);
        assert_eq!(day.message(message(&[about(other)]), 7, register)[5], 1);
        let before = day.state.table.clone();
        assert_eq!(day.message(message(&[about(named)]), 7, register)[5], 2);
        assert_eq!(day.withdraw(2, 0)[5], 1);
        assert_eq!(day.state.table[..67], before[..67]);
        assert!(day.state.table[67..134].iter().all(|&byte| byte == 0), "freed bytes become zero");
        assert_eq!(day.state.table[134..], before[134..], "and no other");
    }
}

/// 7.4: a withdrawal where book and table disagree: the named passages become what the book says, others keep every byte.
pub fn disagreeing(panel: &Panel) {
    let at = |journey: u32, status| of_status(status).with("VehicleJourneyNumber", journey.to_string());
    let mut day = Day::new(panel, 2_000, 2_000);
    let times: Vec<Line> =
        (0..3).map(|journey| Line::pass_time().with("VehicleJourneyNumber", journey.to_string())).collect();
    assert_eq!(day.open(planning(&times), calendar(&[Line::validity()]))[5], 3);
    assert_eq!(day.message(message(&[at(0, 1), at(1, 3), at(5, 3), at(0, 2)]), 7, &ours())[5], 4);
    assert_eq!(day.message(message(&[at(1, 4), at(6, 5)]), 7, &ours())[5], 5);
    let agreeing = day.state.clone();
    let row = |place: usize| agreeing.table[place * 67..place * 67 + 67].to_vec();
    for kept in 0..32_u32 {
        let rows: Vec<Vec<u8>> = (0..5).filter(|place| kept >> place & 1 == 1).map(row).collect();
        let mut day = Day::of(panel, State { rows: rows.len() as u64, ..agreeing.clone() });
        let bytes = rows.concat();
        day.state.table[..bytes.len()].copy_from_slice(&bytes);
        let answer = day.withdraw(1, 7);
        // Journeys 0 and 1 are in the plan; 5 leaves; 2 and 6 are as they were.
        let rows_after = 2 + u64::from(kept >> 2 & 1 == 1) + u64::from(kept >> 4 & 1 == 1);
        assert_eq!((answer[0], answer[5]), (0, rows_after));
        assert_eq!(day.state.table[55], 0);
        assert_eq!((day.state.table[67 + 55], day.state.table[67 + 66]), (4, 1));
        let freed = answer[5] as usize * 67..bytes.len().max(answer[5] as usize * 67);
        assert!(day.state.table[freed.clone()].iter().all(|&byte| byte == 0), "freed");
        assert_eq!(day.state.table[freed.end..], agreeing.table[freed.end..], "the rest stays");
    }
}

/// 7.3: entries go behind the used bytes under the next number, also where the last message is withdrawn; unused bytes stay.
pub fn entries(panel: &Panel) {
    let mut day = Day::new(panel, 67 + 72 * 5 + 30, 400);
    assert_eq!(day.open(planning(&[Line::pass_time()]), calendar(&[Line::validity()]))[4], 67);
    assert_eq!(day.message(message(&[Line::update(), Line::update()]), 7, &ours())[..2], [0, 1]);
    assert_eq!(day.withdraw(1, 0)[4], 67 + 144);
    assert_eq!(day.message(message(&[]), 7, &ours())[..2], [0, 0]);
    assert_eq!(day.message(message(&[Line::update()]), 200, &pair(200, b"CXX"))[..2], [0, 2]);
    let entry = |kind, number, sender| [&[kind, 0, 0, 0, number, sender], &update_body()[..]].concat();
    let expected = [[vec![1], plan_body()].concat(), entry(3, 1, 7), entry(3, 1, 7), entry(2, 2, 200), vec![0xaa; 174]];
    assert_eq!(day.state.book, expected.concat());
    assert_eq!(day.state.table[67..], vec![0xbb; 333], "no byte behind the rows");
}
