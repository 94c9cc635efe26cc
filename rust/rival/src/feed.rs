//! A message in parts: what is known of its dossier goes into the lent numbers,
//! its rows into the staging area as their lines end, and a line that is cut
//! into the lent line.

use super::answer::{Refusal, DOSSIER, LINE};
use super::message::{form_of, grants, sound, take, NEW, OLD};
use super::passage::{Kind, Ranges, BODY, TEXT};
use super::staging::{Lines, Staging};
use super::stream::{self, is_whole, walk, At, ATS, KINDS};

pub type Numbers = [u64; 48];

/// A mark that no other memory has but by intent, then 8 bits for the sender, 2
/// for the kind of the line, 4 for the place in it.
const HEAD: usize = 0;
const TAG: u64 = 0x7276_6c66 << 32;
const SENDER_AT: u32 = 16;
const KIND_AT: u32 = 8;
/// Bytes so far.
const BYTES: usize = 1;
/// Where the line begins that has not ended.
pub const LINE_START: usize = 2;
/// Lines that have ended.
pub const LINES: usize = 3;
/// Rows so far, up to the first fault.
pub const ROWS: usize = 4;
/// Rows that lie in the staging area, from its start on.
pub const LYING: usize = 5;
/// A table is read: its name is the wanted one.
pub const WANTS: usize = 6;
/// The first fault of each sort. Of syntax: its offset and one more; of others
/// the line; 0 where there is none.
const SYNTAX: usize = 7;
pub const LONG: usize = 8;
pub const SHAPE: usize = 9;
pub const TYPE: usize = 10;
pub const COLUMN: usize = 11;
pub const STRANGER: usize = 12;
/// The columns of the table.
pub const SHAPES: usize = 13;
pub const ORDER: usize = 14;
pub const GAPS: usize = 15;
/// The form, as it was stated.
const FORM: usize = 19;

/// Rows of any dossier.
const MOST_ROWS: u64 = 2_427;

fn head(sender: u8, at: At, kind: stream::Kind) -> u64 {
    TAG | (sender as u64) << SENDER_AT | (kind as u64) << KIND_AT | at as u64
}

/// The numbers can be worked with.
#[inline(always)]
fn begun(feed: &Numbers) -> bool {
    (feed[HEAD] & !(0xff << SENDER_AT | 3 << KIND_AT | 7) == TAG)
        & (feed[LINE_START] <= DOSSIER as u64)
        & ((feed[LINE_START] < feed[BYTES])
            | (feed[LINE_START] == feed[BYTES]) & (feed[HEAD] & 7 == At::LineStart as u64))
        & (feed[LINES] <= feed[LINE_START])
        & (feed[ROWS] <= MOST_ROWS)
        & (feed[LYING] <= feed[ROWS])
}

fn sender(feed: &Numbers) -> u8 {
    (feed[HEAD] >> SENDER_AT) as u8
}

fn form(feed: &Numbers) -> Option<bool> {
    u32::try_from(feed[FORM]).ok().and_then(form_of)
}

fn place(feed: &Numbers) -> (At, stream::Kind) {
    (ATS[feed[HEAD] as usize & 7], KINDS[(feed[HEAD] >> KIND_AT) as usize & 3])
}

/// Something may still come of a line of this kind, but that it is too long.
pub fn reads(feed: &Numbers, kind: stream::Kind) -> bool {
    let wanted = match kind {
        stream::Kind::Group => false,
        stream::Kind::Table => true,
        stream::Kind::Labels | stream::Kind::Data => feed[WANTS] != 0,
    };
    wanted && feed[LONG] | feed[SHAPE] == 0
}

pub fn feed_begin(sender: u8, form: u32, feed: &mut Numbers) -> u32 {
    *feed = [0; 48];
    feed[FORM] = form as u64;
    feed[HEAD] = head(sender, At::LineStart, stream::Kind::Group);
    0
}

pub fn feed(part: &[u8], register: &[u8], staging: &mut [u8], line: &mut [u8; LINE], feed: &mut Numbers) -> u32 {
    if !begun(feed) {
        return 1;
    }
    let before = feed[BYTES];
    feed[BYTES] = before.saturating_add(part.len() as u64);
    if before >= DOSSIER as u64 || feed[SYNTAX] != 0 {
        return 0;
    }
    let before = before as usize;
    if let &[byte] = part {
        if plain_byte(byte, before, line, feed) {
            return 0;
        }
    }
    let part = &part[..part.len().min(DOSSIER - before)];
    // One that is not known is read as the old one.
    match form(feed) {
        Some(NEW) => read::<NEW>(part, before, register, staging, line, feed),
        _ => read::<OLD>(part, before, register, staging, line, feed),
    }
    0
}

/// Reads a part, before which so many bytes have come.
fn read<const FORM: bool>(
    part: &[u8],
    before: usize,
    register: &[u8],
    staging: &mut [u8],
    line: &mut [u8; LINE],
    feed: &mut Numbers,
) {
    let (at, kind) = place(feed);
    let sender = sender(feed);
    let staging = Staging::<FORM> { register, sender, rows: staging, feed, known: None, columns: None };
    let mut lines = Lines { part, before, line, staging };
    let walked = walk(part, at, kind, |kind, next| lines.ended(kind, next));
    let Lines { line, staging: Staging { feed, .. }, .. } = lines;
    match walked {
        Ok((at, kind)) => {
            feed[HEAD] = head(sender, at, kind);
            // Of a line that has but begun it may not be known what it is.
            if at == At::Mark || reads(feed, kind) {
                keep(part, before, line, feed[LINE_START] as usize);
            }
        }
        Err(offset) => feed[SYNTAX] = (before + offset) as u64 + 1,
    }
}

/// A single byte inside a line that is neither a mark nor a fault: most of those
/// that come one by one.
#[inline(always)]
fn plain_byte(byte: u8, before: usize, line: &mut [u8; LINE], feed: &mut Numbers) -> bool {
    let (at, kind) = place(feed);
    let plain = matches!(at, At::FieldStart | At::Field) && byte >= 32 && byte != b'\\';
    if plain {
        let at = if byte == b'|' { At::FieldStart } else { At::Field };
        feed[HEAD] = feed[HEAD] & !7 | at as u64;
        if reads(feed, kind) {
            if let Some(room) = line.get_mut(before - feed[LINE_START] as usize) {
                *room = byte;
            }
        }
    }
    plain
}

/// Keeps what the part has of the line that has not ended.
#[inline(always)]
fn keep(part: &[u8], before: usize, line: &mut [u8; LINE], start: usize) {
    let from = start.max(before);
    let rest = &part[from - before..];
    if let Some(room) = line.get_mut(from - start..from - start + rest.len()) {
        room.copy_from_slice(rest);
    }
}

pub fn feed_end(
    register: &[u8],
    staging: &[u8],
    book: &mut [u8],
    table: &mut [u8],
    used: u64,
    rows: u64,
    feed: &mut Numbers,
) -> [u64; 6] {
    match end(register, staging, book, table, used, rows, feed) {
        Ok((number, used, rows)) => {
            feed.fill(0);
            [0, number as u64, 0, 0, used as u64, rows as u64]
        }
        Err(refusal) => refusal.answer(0, used, rows),
    }
}

fn end(
    register: &[u8],
    staging: &[u8],
    book: &mut [u8],
    table: &mut [u8],
    used: u64,
    rows: u64,
    feed: &Numbers,
) -> Result<(u32, usize, usize), Refusal> {
    if !begun(feed) {
        return Err(Refusal::bare(1));
    }
    let (parts, rows) = sound(register, book, table, used, rows).ok_or(Refusal::bare(1))?;
    let (updates, _) = staging.as_chunks::<BODY>();
    let updates = &updates[..updates.len().min(feed[LYING] as usize)];
    let mut ranges = Ranges::new();
    if !updates.iter().all(|body| ranges.sound(body, Kind::Update)) {
        return Err(Refusal::bare(1));
    }
    if form(feed).is_none() {
        return Err(Refusal::bare(18));
    }
    read_faults(feed)?;
    let mut known: Option<&[u8; TEXT]> = None;
    for body in updates {
        let owner = body.first_chunk().unwrap();
        if known != Some(owner) {
            if !grants(register, sender(feed), owner) {
                return Err(Refusal(6, 0, 0));
            }
            known = Some(owner);
        }
    }
    if (updates.len() as u64) < feed[ROWS] {
        return Err(Refusal::bare(14));
    }
    take(updates, sender(feed), book, table, &parts, rows)
}

/// What was found while the parts came.
fn read_faults(feed: &Numbers) -> Result<(), Refusal> {
    let (at, kind) = place(feed);
    if feed[BYTES] > DOSSIER as u64 {
        return Err(Refusal::bare(2));
    }
    if feed[SYNTAX] != 0 {
        return Err(Refusal(3, feed[SYNTAX] - 1, 0));
    }
    if !is_whole(at, kind) {
        return Err(Refusal(3, feed[BYTES], 0));
    }
    for (number, line, second) in [(15, LONG, None), (4, SHAPE, None), (5, TYPE, Some(COLUMN)), (6, STRANGER, None)] {
        if feed[line] != 0 {
            return Err(Refusal(number, feed[line], second.map_or(0, |second| feed[second])));
        }
    }
    Ok(())
}

#[cfg(test)]
mod tests {
    use super::super::message::message;
    use super::*;

    const LABELS: &str = "DataOwnerCode|OperationDate|LinePlanningNumber|VehicleJourneyNumber|FortifyOrderNumber|\
        UserStopCode|UserStopOrderNumber|DestinationCode|LastUpdateTimeStamp|TripStopStatus|ExpectedArrivalTime|x|\
        ExpectedDepartureTime|JourneyStopType";
    const ROW: &str = "CXX|2016-03-01|A\\i|7|0|S1|1|E\\p|2016-03-01T09:00:00+01:00|DRIVING|\\0|\\0|10:07:30|FIRST";
    const REGISTER: &[u8] = b"\x03CXX\0\0\0\0\0\0\0";

    struct Memory {
        staging: Vec<u8>,
        line: [u8; LINE],
        feed: Numbers,
    }

    fn begun_by(sender: u8, room: usize) -> Memory {
        begun_in(0, sender, room)
    }

    fn begun_in(form: u32, sender: u8, room: usize) -> Memory {
        let mut memory = Memory { staging: vec![7; room], line: [7; LINE], feed: [7; 48] };
        assert_eq!(feed_begin(sender, form, &mut memory.feed), 0);
        memory
    }

    impl Memory {
        fn fed(&mut self, part: &[u8]) -> u32 {
            feed(part, REGISTER, &mut self.staging, &mut self.line, &mut self.feed)
        }

        fn ended(&mut self) -> [u64; 6] {
            feed_end(REGISTER, &self.staging, &mut [0; 720], &mut [0; 670], 0, 0, &mut self.feed)
        }
    }

    fn whole(dossier: &[u8]) -> [u64; 6] {
        whole_in(0, dossier)
    }

    fn whole_in(form: u32, dossier: &[u8]) -> [u64; 6] {
        message(dossier, 3, form, REGISTER, &mut [0; 720], &mut [0; 670], 0, 0)
    }

    /// Dossiers that are right, and such as get each refusal of reading, by more than one fault where that is possible.
    fn dossiers() -> Vec<(u64, Vec<u8>)> {
        let of = |rows: &[&str]| {
            let rows: String = rows.iter().map(|row| format!("{row}\r\n")).collect();
            format!("\\Gx|\r\n\\Tother\r\n\\L\r\n\r\n\\TDATEDPASSTIME|\r\n\\L{LABELS}\r\n{rows}").into_bytes()
        };
        let long = format!("{}{}", ROW, "y".repeat(4_100));
        let (short, stranger, wrong) = ("CXX|x", ROW.replace("CXX", "ARR"), ROW.replace("10:0", "x"));
        let mut cut = of(&[ROW, ROW]);
        cut.pop();
        vec![
            (0, of(&[ROW, &ROW.replace("|7|", "|8|"), "\\Tnext", "\\L|", "\\0|x"])),
            (3, cut),
            (3, of(&[ROW, &long, short, "a\\0"])),
            (3, of(&[ROW, "\\Tdatedpasstime"])),
            (15, of(&[ROW, short, &long, ROW])),
            (4, of(&[ROW, &stranger, &wrong, ROW, short])),
            (4, of(&[ROW, "\\TDATEDPASSTIME", "\\LDataOwnerCode", ROW])),
            (5, of(&[ROW, &stranger, &wrong, ROW])),
            (6, of(&[ROW, &stranger, ROW])),
            (2, [of(&[ROW]), vec![b'q'; DOSSIER]].concat()),
        ]
    }

    /// The answer is that of the one call, and the staging area is the same, wherever a dossier is cut: short ones anywhere.
    #[test]
    fn cuts_are_free() {
        for (number, dossier) in dossiers() {
            let expected = whole(&dossier);
            assert_eq!(expected[0], number);
            let mut once = begun_by(3, 200);
            once.fed(&dossier);
            for cut in (0..=dossier.len()).step_by(1 + dossier.len() / 2_000) {
                let mut parts = begun_by(3, 200);
                let middle = cut + (dossier.len() - cut) / 3;
                for part in [&dossier[..cut], &dossier[cut..middle], &dossier[middle..]] {
                    assert_eq!(parts.fed(part), 0);
                }
                assert!(parts.staging == once.staging, "{number}, cut at {cut}");
                let before = parts.feed;
                assert_eq!(parts.ended(), expected, "cut at {cut}");
                assert!(parts.feed == if number == 0 { [0; 48] } else { before });
            }
            let mut bytes = begun_by(3, 200);
            dossier.iter().for_each(|&byte| assert_eq!(bytes.fed(&[byte]), 0));
            assert!(bytes.staging == once.staging && bytes.ended() == expected);
        }
    }

    /// Each form reads its own words, whole and in parts; one that is not known is read as the old one and refused.
    #[test]
    fn forms() {
        let of = |name: &str, words: &str| {
            let line = format!("\\L{LABELS}|{name}|Monitored\r\n{ROW}|{words}\r\n");
            format!("\\G\r\n\\TDATEDPASSTIME\r\n{line}").into_bytes()
        };
        let (old, new) = (of("ShowCancelledTrip", "0|1"), of("ShowCancelledJourney", "message|true"));
        let cases = [
            (0, &old, 0, Some([0, 255, 1])),
            (1, &new, 0, Some([2, 255, 1])),
            (1, &old, 5, None),
            (0, &new, 5, None),
            (2, &old, 18, Some([0, 255, 1])),
            (u32::MAX, &new, 18, None),
        ];
        for (form, dossier, number, staged) in cases {
            let expected = whole_in(form, dossier);
            assert_eq!(expected[0], number, "{form}");
            for wide in [1, 7, 100, dossier.len()] {
                let mut parts = begun_in(form, 3, BODY);
                dossier.chunks(wide).for_each(|part| assert_eq!(parts.fed(part), 0));
                assert_eq!(parts.staging[63..], staged.unwrap_or([7; 3]));
                assert_eq!(parts.ended(), expected, "{form}");
            }
        }
    }

    /// Rows for which there is no room, an owner that is no longer granted, and rows that somebody has changed.
    #[test]
    fn the_end_looks_at_what_is_staged() {
        let (_, dossier) = dossiers().remove(0);
        let mut short = begun_by(3, 2 * BODY - 1);
        short.fed(&dossier);
        assert_eq!(short.ended(), [14, 0, 0, 0, 0, 0]);
        assert_eq!(short.staging[BODY..], [7; BODY - 1]);
        let mut fed = begun_by(3, 2 * BODY);
        fed.fed(&dossier);
        let changed = feed_end(&[], &fed.staging, &mut [0; 720], &mut [0; 670], 0, 0, &mut fed.feed);
        assert_eq!(changed, [6, 0, 0, 0, 0, 0]);
        fed.staging[0] = 0;
        assert_eq!(fed.ended()[0], 1);
        fed.staging[0] = b'C';
        assert_eq!(fed.ended(), [0, 1, 0, 0, 144, 2]);
        assert_eq!((fed.ended()[0], fed.fed(b"x")), (1, 1));
    }

    /// Numbers that nobody has written into a feed are none, or do no harm.
    #[test]
    fn any_numbers_may_stand_there() {
        let mut random = 1u64;
        let mut next = move || {
            random = random.wrapping_mul(6_364_136_223_846_793_005).wrapping_add(1);
            random >> 33
        };
        let (_, dossier) = dossiers().remove(0);
        for _ in 0..20_000 {
            let mut memory = begun_by(3, 200);
            memory.fed(&dossier[..next() as usize % dossier.len()]);
            for _ in 0..next() % 3 {
                let values = [0, 1, next() % 70_000, next(), u64::MAX];
                memory.feed[next() as usize % 20] = values[next() as usize % 5];
            }
            if next() % 4 == 0 {
                memory.feed[HEAD] = TAG | (next() % 8) | ((next() % 4) << KIND_AT);
            }
            memory.line[next() as usize % 300] = next() as u8;
            let before = memory.feed;
            let part = &dossier[next() as usize % dossier.len()..];
            let taken = memory.fed(part);
            assert!(taken == 0 || taken == 1 && memory.feed == before);
            memory.ended();
        }
        let mut none = Memory { staging: vec![7; 200], line: [7; LINE], feed: [0; 48] };
        assert_eq!((none.fed(b"\\G"), none.ended()[0], none.feed), (1, 1, [0; 48]));
    }
}
