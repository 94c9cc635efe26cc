//! How often each thing has to be met in so many calls.

use crate::worlds::columns::{Form, CALENDAR, MESSAGE, NEW_MESSAGE, PLANNING};
use crate::worlds::fields::STATUSES;

/// Fewer calls than these say too little to be held to anything.
const FEWEST: u64 = 20_000;

/// What has to be met at least so often in 100,000 calls.
const NAMED: &[(&str, u64)] = &[
    ("1 by the register", 100),
    ("1 by the used bytes", 100),
    ("1 by the rows", 100),
    ("1 by used bytes over the size", 10),
    ("1 by rows over the size", 10),
    ("1 by contents", 1_000),
    ("2: planning", 10),
    ("2: calendar", 6),
    ("2: message", 8),
    ("2: 8.5 message", 8),
    ("a dossier of 65,536 bytes is read", 12),
    ("a dossier of 65,537 bytes", 20),
    ("a line of 4,096 bytes is read", 20),
    ("15: a line of 4,097 bytes", 80),
    ("18: message", 300),
    ("18: message, the largest number", 30),
    ("18: message, a number whose last byte is a form", 150),
    ("18: message, a dossier at fault", 5),
    ("18: end", 150),
    ("18: end, the largest number", 10),
    ("18: end, a number whose last byte is a form", 80),
    ("18: end, a dossier at fault", 8),
    ("18: end, rows staged", 60),
    ("5: a word of the other form in the old form", 60),
    ("5: a word of the other form in the 8.5 form", 60),
    ("6: the desk", 60),
    ("6: a sender", 500),
    ("6: behind the first line", 100),
    ("6: a sender of other owners", 100),
    ("7: open, by what is lent", 100),
    ("8: open, by what is lent", 50),
    ("8: open, by the size", 8),
    ("9: open", 100),
    ("7: message, by what is lent", 100),
    ("7: message, by the size", 5),
    ("8: message, by what is lent", 100),
    ("8: message, by the size", 5),
    ("8: withdraw, by what is lent", 20),
    ("8: withdraw, by the size", 5),
    ("10: number 0", 100),
    ("10: another number", 100),
    ("11: by the desk", 20),
    ("11: by the sender", 100),
    ("12", 100),
    ("13: owner", 100),
    ("13: stop", 100),
    ("13: date", 50),
    ("13: second", 50),
    ("13: horizon", 50),
    ("5: in a line beyond 255", 5),
    ("open: to the last byte lent", 100),
    ("open: to the last row lent", 50),
    ("open: over a dozen validities of a pass time", 50),
    ("open: nothing joins", 50),
    ("open: several owners", 200),
    ("message: without rows", 120),
    ("message: without rows, no room for one", 10),
    ("message: to the last byte lent", 10),
    ("message: to the last row lent", 50),
    ("message: to row 2,048", 8),
    ("message: onto 2,048 rows", 5),
    ("message: of held passages alone", 500),
    ("message: a number beyond 255", 5),
    ("message: show cancelled says nothing", 1_000),
    ("message: flexible says nothing", 1_000),
    ("message: monitored says nothing", 1_000),
    ("message: accepted with rows in the old form", 1_500),
    ("message: accepted with rows in the 8.5 form", 1_500),
    ("message: the other form's name, accepted", 700),
    ("message: the other form's name twice, accepted", 300),
    ("message: 1 in an unknown form", 20),
    ("message: message is kept", 1_000),
    ("message: message over true", 500),
    ("message: another word over message", 250),
    ("message: a held message stays", 350),
    ("withdraw: a row with message stands", 250),
    ("withdraw: by the desk", 200),
    ("withdraw: by the sender", 1_000),
    ("withdraw: rows leave", 500),
    ("withdraw: two rows leave", 200),
    ("withdraw: rows come", 50),
    ("withdraw: in a full book", 3),
    ("withdraw: an earlier row stands", 200),
    ("withdraw: a later row stands", 200),
    ("withdraw: no row stands", 500),
    ("withdraw: a row of another withdrawn message", 100),
    ("feed: no part at all", 20),
    ("feed: one part", 300),
    ("feed: over 20 parts", 500),
    ("feed: an empty part", 800),
    ("feed: cut behind a backslash", 1_000),
    ("feed: cut between CR and LF", 1_000),
    ("feed: cut within a line", 3_000),
    ("feed: over 65,536 bytes", 6),
    ("feed: a part of no begun feed", 1_000),
    ("feed: a part behind an accepted end", 60),
    ("feed: a part with a register of another length", 1_000),
    ("feed: begun anew", 100),
    ("feed: numbers or line changed, 1", 100),
    ("feed: numbers or line changed, not seen", 60),
    ("end: accepted with rows", 1_000),
    ("end: accepted with rows, of several parts", 800),
    ("end: accepted with rows in the old form", 400),
    ("end: accepted with rows in the 8.5 form", 400),
    ("end: the other form's name, accepted", 200),
    ("end: the other form's name twice, accepted", 90),
    ("end: 1 in an unknown form", 25),
    ("end: accepted without rows", 150),
    ("end: accepted without rows, no room for one", 60),
    ("end: accepted, staged rows changed", 60),
    ("end: accepted behind a refused one", 50),
    ("end: the staging area to its last byte", 200),
    ("end: refused for the dossier, rows staged before the fault", 300),
    ("end: 1 by the numbers", 150),
    ("end: 1 by the register", 150),
    ("end: 1 by book or table", 200),
    ("end: 1 behind an accepted one", 100),
    ("end: 1, staged rows changed", 80),
    ("end: 2", 6),
    ("end: 3", 400),
    ("end: 15", 30),
    ("end: 4", 200),
    ("end: 5", 200),
    ("end: 6 with a line", 300),
    ("end: 6 with line 0", 40),
    ("end: 6 with line 0, staged rows changed", 5),
    ("end: 14", 400),
    ("end: 14, a byte less than whole rows", 80),
    ("end: 14, the area was shorter before", 50),
    ("end: 7", 300),
    ("end: 8", 100),
    ("board: two rows and more", 4_000),
    ("board: five rows and more", 1_200),
    ("board: not in the keys' order", 2_000),
    ("board: equal moments", 500),
    ("board: cut by its places", 500),
    ("board: places to spare", 2_000),
    ("board: shown at now", 500),
    ("board: shown at the horizon's end", 500),
    ("board: hidden a second before now", 100),
    ("board: hidden a second behind the horizon", 100),
    ("board: shown behind midnight of its operating day", 500),
    ("board: shown behind midnight of the question", 500),
    ("board: shown on 2100-01-01", 20),
    ("board: shown CANCEL", 200),
    ("board: shown flexible TRUE", 200),
    ("board: shown flexible REALTIME", 100),
    ("board: hidden by FALSE alone", 100),
    ("board: hidden by REALTIME alone", 50),
    ("board: hidden by owner alone", 200),
    ("board: hidden by stop alone", 200),
    ("board: hidden by LAST alone", 200),
    ("board: hidden by PASSED alone", 200),
    ("board: hidden by before now alone", 200),
    ("board: hidden by behind the horizon alone", 200),
    ("board: hidden by CANCEL alone", 100),
    ("board: hidden by message alone", 60),
    ("board: shown with message, not CANCEL", 300),
    ("board: hidden by flexible alone", 200),
    ("board: hidden by not being heard of alone", 200),
    ("board: hidden relief journey 1", 50),
    ("board: hidden relief journey above 1", 50),
    ("board: shown relief journey", 200),
    ("board: shown unheard of", 200),
];

/// What is rarer, in a million calls: fixed cases at the borders see to these as well.
const RARE: &[(&str, u64)] = &[
    ("5: in a column beyond 1,000", 5),
    ("feed: 65,536 bytes", 10),
    ("end: over 100 rows", 20),
    ("message: over 700 rows", 3),
    ("open: 1,400 pass times of a date", 5),
    ("7: open, by the size", 5),
    ("open: to row 2,048", 20),
    ("open: over 1,000 validities of a pass time", 20),
    ("message: to byte 294,912", 10),
    ("5: in a column beyond 255", 30),
];

/// What has to be met in so many calls, and how often.
pub(super) fn least(calls: u64) -> Vec<(String, u64)> {
    if calls < FEWEST {
        return Vec::new();
    }
    let mut least: Vec<(String, u64)> = NAMED.iter().map(|(name, least)| (name.to_string(), *least)).collect();
    least.extend(cells());
    let dossiers_read =
        [("message", &MESSAGE), ("8.5 message", &NEW_MESSAGE), ("planning", &PLANNING), ("calendar", &CALENDAR)];
    for (which, form) in dossiers_read {
        least.extend(dossiers(which, form));
    }
    let common = least.into_iter().map(|(name, least)| (name, least * calls / 100_000));
    let rare = RARE.iter().map(|(name, least)| (name.to_string(), least * calls / 1_000_000));
    // The ends of months are counted once each: more calls do not bring more of them in proportion.
    let months = ("first and last days of months".to_string(), 1_000 * calls.min(100_000) / 100_000);
    common.chain(rare).chain([months]).collect()
}

/// All 36 cells of table 17, by messages and by withdrawals.
fn cells() -> Vec<(String, u64)> {
    let cell = |held: &str, said: &str| {
        [(format!("message: {held} then {said}"), 100), (format!("withdraw: {held} then {said}"), 10)]
    };
    STATUSES.iter().flat_map(|held| STATUSES.iter().flat_map(move |said| cell(held, said))).collect()
}

/// Refusals 3 to 5 and 15 of a dossier at each of their causes, every wanted column among them.
fn dossiers(which: &str, form: &Form) -> Vec<(String, u64)> {
    let causes = [
        ("3", "at its end", 20),
        ("3", "at a byte below 32", 20),
        ("3", "at behind a backslash", 20),
        ("3", "at behind CR", 5),
        ("3", "at another byte", 10),
        ("15", "the group line", 10),
        ("15", "a table's name", 10),
        ("15", "a label line", 5),
        ("15", "a data line", 5),
        ("4", "a field less", 20),
        ("4", "a field more", 20),
        ("4", "a name twice", 20),
        ("4", "a name missing", 20),
        ("5", "empty", 20),
        ("5", "no content", 20),
        ("5", "outside its type", 50),
    ];
    let columns = form.wanted.iter().map(|wanted| (format!("5: {which}, {}", wanted.name), 10));
    causes.iter().map(|(number, what, least)| (format!("{number}: {which}, {what}"), *least)).chain(columns).collect()
}
