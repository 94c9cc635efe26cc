//! Dossiers and a desk to try the calls on.

use std::marker::PhantomData;

use checks::sides::Side;

pub const LABELS: &str = "DataOwnerCode|OperationDate|LinePlanningNumber|VehicleJourneyNumber|FortifyOrderNumber|\
UserStopCode|UserStopOrderNumber|DestinationCode|LastUpdateTimeStamp|TripStopStatus|ExpectedArrivalTime|\
ExpectedDepartureTime|JourneyStopType|ShowCancelledTrip|ShowFlexibleTrip|Monitored";
pub const PLAN_LABELS: &str = "DataOwnerCode|LocalServiceLevelCode|LinePlanningNumber|VehicleJourneyNumber|\
FortifyOrderNumber|UserStopCode|UserStopOrderNumber|DestinationCode|TargetArrivalTime|TargetDepartureTime|\
JourneyStopType|ShowFlexibleTrip";
pub const DAY_LABELS: &str = "DataOwnerCode|LocalServiceLevelCode|OperationDate";

pub fn dossier(table: &str, labels: &str, rows: &[String]) -> Vec<u8> {
    let mut d = format!("\\Gx|y|\\0\r\n\\T{table}|{table}|c\r\n\\L{labels}\r\n");
    for row in rows {
        d += row;
        d += "\r\n";
    }
    d.into_bytes()
}

pub fn updates(rows: &[String]) -> Vec<u8> {
    dossier("DATEDPASSTIME", LABELS, rows)
}

pub fn planning(rows: &[String]) -> Vec<u8> {
    dossier("LOCALSERVICEGROUPPASSTIME", PLAN_LABELS, rows)
}

pub fn calendar(rows: &[String]) -> Vec<u8> {
    dossier("LOCALSERVICEGROUPVALIDITY", DAY_LABELS, rows)
}

/// A row of stop S1 in journey 1 with an order number.
pub fn row(order: u32, status: &str) -> String {
    format!("CXX|2016-03-01|A031|1|0|S1|{order}|CIOS|2016-03-01T15:15:30+01:00|{status}|10:00:00|10:00:30|INTERMEDIATE|\\0|\\0|\\0")
}

pub fn pass(level: &str, order: u32, departure: &str) -> String {
    format!("CXX|{level}|A031|1|0|S1|{order}|CIOS|{departure}|{departure}|INTERMEDIATE|\\0")
}

pub fn day(level: &str, date: &str) -> String {
    format!("CXX|{level}|{date}")
}

pub fn pair(sender: u8, owner: &str) -> Vec<u8> {
    let mut p = vec![0; 11];
    p[0] = sender;
    p[1..1 + owner.len()].copy_from_slice(owner.as_bytes());
    p
}

pub struct Desk<S> {
    pub book: Vec<u8>,
    pub table: Vec<u8>,
    pub used: u64,
    pub rows: u64,
    side: PhantomData<S>,
}

impl<S> Clone for Desk<S> {
    fn clone(&self) -> Desk<S> {
        Desk { book: self.book.clone(), table: self.table.clone(), used: self.used, rows: self.rows, side: PhantomData }
    }
}

impl<S: Side> Desk<S> {
    pub fn new(book: usize, table: usize) -> Desk<S> {
        Desk { book: vec![0xAA; book], table: vec![0xBB; table], used: 0, rows: 0, side: PhantomData }
    }

    pub fn big() -> Desk<S> {
        Desk::new(294_912, 2_048 * 67)
    }

    /// Keeps the counts and checks that a refusal changes nothing.
    pub fn done(&mut self, before: Desk<S>, answer: [u64; 6]) -> [u64; 6] {
        if answer[0] != 0 {
            assert!(self.book == before.book && self.table == before.table);
            assert_eq!(answer[4..], [before.used, before.rows]);
        } else {
            // Unused bytes keep their contents; freed table bytes are zero.
            let (u, r, was) = (answer[4] as usize, answer[5] as usize * 67, before.rows as usize * 67);
            assert!(self.book[u..] == before.book[u..]);
            assert!(self.table[r.max(was)..] == before.table[r.max(was)..]);
        }
        (self.used, self.rows) = (answer[4], answer[5]);
        answer
    }

    pub fn open(&mut self, planning: &[u8], calendar: &[u8]) -> [u64; 6] {
        let before = self.clone();
        let a = S::open(planning, calendar, &mut self.book, &mut self.table, self.used, self.rows);
        self.done(before, a)
    }

    /// A message in the old form.
    pub fn message(&mut self, dossier: &[u8], sender: u8, register: &[u8]) -> [u64; 6] {
        self.message_in(0, dossier, sender, register)
    }

    pub fn message_in(&mut self, form: u32, dossier: &[u8], sender: u8, register: &[u8]) -> [u64; 6] {
        let before = self.clone();
        let a = S::message(dossier, sender, form, register, &mut self.book, &mut self.table, self.used, self.rows);
        self.done(before, a)
    }

    /// The end of a feed, with the counts kept and the feed looked at.
    pub fn end(&mut self, feed: &mut Feed<S>, register: &[u8], staging: usize) -> [u64; 6] {
        let (before, numbers) = (self.clone(), feed.numbers);
        let lent = &feed.staging[..staging];
        let a = S::feed_end(register, lent, &mut self.book, &mut self.table, self.used, self.rows, &mut feed.numbers);
        assert_eq!(feed.numbers, if a[0] == 0 { [0; 48] } else { numbers });
        self.done(before, a)
    }

    pub fn send(&mut self, rows: &[String]) -> [u64; 6] {
        self.message(&updates(rows), 7, &pair(7, "CXX"))
    }

    pub fn withdraw(&mut self, number: u32, sender: u8) -> [u64; 6] {
        let before = self.clone();
        let a = S::withdraw(number, sender, &mut self.book, &mut self.table, self.used, self.rows);
        if a[0] == 0 {
            let (r, was) = (a[5] as usize * 67, before.rows as usize * 67);
            assert!(self.table[r.min(was)..was].iter().all(|&b| b == 0) || r >= was);
        }
        self.done(before, a)
    }

    pub fn board(&self, date: u32, second: u32, horizon: u32, places: &mut [u32]) -> [u64; 3] {
        S::board(b"CXX", b"S1", date, second, horizon, &self.table, self.rows, places)
    }

    pub fn row(&self, place: usize) -> &[u8] {
        &self.table[place * 67..place * 67 + 67]
    }

    pub fn status(&self, place: usize) -> u8 {
        self.row(place)[55]
    }
}

/// The memory of a feed.
pub struct Feed<S> {
    pub numbers: [u64; 48],
    pub line: [u8; 4_096],
    pub staging: Vec<u8>,
    side: PhantomData<S>,
}

impl<S: Side> Feed<S> {
    /// A feed in the old form that has begun, with so many bytes to stage rows in.
    pub fn begun(sender: u8, staging: usize) -> Feed<S> {
        Feed::begun_in(0, sender, staging)
    }

    pub fn begun_in(form: u32, sender: u8, staging: usize) -> Feed<S> {
        let mut feed = Feed { numbers: [9; 48], line: [9; 4_096], staging: vec![0xCC; staging], side: PhantomData };
        feed.begin_in(form, sender);
        feed
    }

    pub fn begin(&mut self, sender: u8) {
        self.begin_in(0, sender);
    }

    pub fn begin_in(&mut self, form: u32, sender: u8) {
        assert_eq!(S::feed_begin(sender, form, &mut self.numbers), 0);
    }

    /// A part; a refused one changes nothing.
    pub fn part(&mut self, bytes: &[u8], register: &[u8]) -> u32 {
        let before = (self.numbers, self.line, self.staging.clone());
        let number = S::feed(bytes, register, &mut self.staging, &mut self.line, &mut self.numbers);
        assert!(number == 0 || (self.numbers, self.line, self.staging.clone()) == before);
        number
    }
}

pub fn planned<S: Side>() -> Desk<S> {
    let mut desk = Desk::big();
    assert_eq!(
        desk.open(&planning(&[pass("w", 1, "10:00:00")]), &calendar(&[day("w", "2016-03-01")])),
        [0, 0, 0, 0, 67, 1]
    );
    desk
}

pub struct Random(pub u64);

impl Random {
    pub fn next(&mut self, below: usize) -> usize {
        self.0 ^= self.0 << 13;
        self.0 ^= self.0 >> 7;
        self.0 ^= self.0 << 17;
        (self.0 >> 20) as usize % below
    }
}
