//! A message in parts beside the same dossier in one call: the beginning, every part and the end, timed as one.

use layout::{ANSWER, FEED, LINE, STAGING};

use super::*;

/// Bytes of a part: the whole dossier, what an Ethernet packet carries of a TCP stream, a line or less, and one.
const SIZES: [(usize, &str); 4] =
    [(usize::MAX, "in one part"), (1_460, "parts of 1,460 bytes"), (64, "parts of 64 bytes"), (1, "single bytes")];

/// The calls of a feed.
trait Feeds: Side {
    fn begin(sender: u8, form: u32, feed: &mut [u64; FEED]) -> u32;
    fn part(part: &[u8], register: &[u8], staging: &mut [u8], line: &mut [u8; LINE], feed: &mut [u64; FEED]) -> u32;
    fn end(
        register: &[u8],
        staging: &[u8],
        lent: (&mut [u8], &mut [u8]),
        counts: (u64, u64),
        feed: &mut [u64; FEED],
    ) -> [u64; ANSWER];
}

macro_rules! feeds {
    ($side:ident = $module:ident) => {
        impl Feeds for $side {
            fn begin(sender: u8, form: u32, feed: &mut [u64; FEED]) -> u32 {
                $module::feed_begin(sender, form, feed)
            }

            fn part(
                part: &[u8],
                register: &[u8],
                staging: &mut [u8],
                line: &mut [u8; LINE],
                feed: &mut [u64; FEED],
            ) -> u32 {
                $module::feed(part, register, staging, line, feed)
            }

            fn end(
                register: &[u8],
                staging: &[u8],
                (book, table): (&mut [u8], &mut [u8]),
                (used, rows): (u64, u64),
                feed: &mut [u64; FEED],
            ) -> [u64; ANSWER] {
                $module::feed_end(register, staging, book, table, used, rows, feed)
            }
        }
    };
}

feeds!(Proved = raw);
feeds!(Rival = rival);

/// What one feed is lent, for both sides by turns.
struct Feeding<'a> {
    dossier: &'a [u8],
    size: usize,
    day: &'a State,
    register: Vec<u8>,
    book: Vec<u8>,
    table: Vec<u8>,
    staging: Vec<u8>,
    line: [u8; LINE],
    feed: [u64; FEED],
}

impl Feeding<'_> {
    fn set(&mut self) {
        self.book.copy_from_slice(&self.day.book);
        self.table.copy_from_slice(&self.day.table);
    }

    /// Sets the lent bytes anew, then times one feed, in microseconds.
    fn sample<S: Feeds>(&mut self) -> f64 {
        self.set();
        let start = Instant::now();
        black_box(self.fed::<S>());
        start.elapsed().as_secs_f64() * 1e6
    }

    fn fed<S: Feeds>(&mut self) -> [u64; ANSWER] {
        S::begin(SENDER, OLD_FORM, &mut self.feed);
        for part in black_box(self.dossier).chunks(self.size) {
            S::part(part, &self.register, &mut self.staging, &mut self.line, &mut self.feed);
        }
        let counts = (self.day.used, self.day.rows);
        S::end(&self.register, &self.staging, (&mut self.book, &mut self.table), counts, &mut self.feed)
    }

    /// What is timed must be the same work: both sides' outcomes are compared first, with those of the one call too.
    fn agreed_answer(&mut self) -> u64 {
        let job = Job { call: message(self.dossier), lent: self.day.clone(), keep: true, shift: 0 };
        let whole = perform::<Rival>(&job);
        for fed in [Self::fed::<Proved>, Self::fed::<Rival>] {
            self.set();
            self.staging.fill(7);
            let answer = fed(self);
            assert!(
                answer == whole.answer && self.book == whole.book && self.table == whole.table,
                "parts of {} bytes: the sides differ",
                self.size
            );
        }
        whole.answer[0]
    }
}

pub fn print(rows: usize, samples: usize) {
    let day = Day::new(rows);
    for (columns, name) in [(Columns::All, "65 columns"), (Columns::Wanted, "wanted columns")] {
        let dossier = day.message_of(usize::MAX, columns);
        let name = format!("{name}, {} rows", dossier.rows);
        measure(rows, &case(format!("message, {name}, one call"), message(&dossier.bytes), &day.state), samples);
        for (size, way) in SIZES {
            let mut feeding = Feeding {
                dossier: &dossier.bytes,
                size,
                day: &day.state,
                register: register(),
                book: day.state.book.clone(),
                table: day.state.table.clone(),
                staging: vec![0; STAGING],
                line: [0; LINE],
                feed: [0; FEED],
            };
            let answer = feeding.agreed_answer();
            let times = by_turns(samples, || (feeding.sample::<Proved>(), feeding.sample::<Rival>()));
            print_line(rows, &format!("message, {name}, {way}"), &answer.to_string(), times);
        }
    }
}
