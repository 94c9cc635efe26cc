//! The implementations behind one name, so that each can stand in for the others.

use zhemdurak::{Counts, Date, Day, Dossier, Feed, Form, Kept, MessageNumber, Question, Refusal, Register, Sender};

use layout::{FEED, LINE};

use crate::call::{agrees, perform, Job, Outcome};

/// The calls as every side has them: the one list of their parameters here. `$then` makes something of it.
macro_rules! calls {
    ($then:ident! { $($head:tt)* }) => {
        $then! {
            $($head)*
            fn open(planning: &[u8], calendar: &[u8], book: &mut [u8], table: &mut [u8], used: u64, rows: u64)
                -> [u64; 6];
            fn message(dossier: &[u8], sender: u8, form: u32, register: &[u8], book: &mut [u8], table: &mut [u8], used: u64, rows: u64)
                -> [u64; 6];
            fn feed_begin(sender: u8, form: u32, feed: &mut [u64; FEED]) -> u32;
            fn feed(part: &[u8], register: &[u8], staging: &mut [u8], line: &mut [u8; LINE], feed: &mut [u64; FEED]) -> u32;
            fn feed_end(register: &[u8], staging: &[u8], book: &mut [u8], table: &mut [u8], used: u64, rows: u64,
                feed: &mut [u64; FEED]) -> [u64; 6];
            fn withdraw(number: u32, sender: u8, book: &mut [u8], table: &mut [u8], used: u64, rows: u64) -> [u64; 6];
            fn board(owner: &[u8], stop: &[u8], date: u32, second: u32, horizon: u32, table: &[u8], rows: u64,
                places: &mut [u32]) -> [u64; 3];
        }
    };
}

macro_rules! declare {
    ($(fn $call:ident($($part:ident: $kind:ty),*) -> $answer:ty;)*) => {
        /// An implementation of the calls, with the answers of the C face.
        pub trait Side {
            const NAME: &'static str;
            /// It takes any numbers and any line for a feed, and its memory of a feed is the same however the dossier was cut. Another
            /// side keeps of a feed what it likes, and is lent what it wrote.
            const TAKES_ANY_FEED: bool = false;
            $(#[allow(clippy::too_many_arguments)]
            fn $call($($part: $kind),*) -> $answer;)*
        }
    };
}

/// A side that is a crate with functions of these names.
macro_rules! forward {
    ($side:ident $name:literal $(takes any feed: $any:literal)? = $module:ident $(fn $call:ident($($part:ident: $kind:ty),*) -> $answer:ty;)*) => {
        impl Side for $side {
            const NAME: &'static str = $name;
            $(const TAKES_ANY_FEED: bool = $any;)?
            $(fn $call($($part: $kind),*) -> $answer {
                $module::$call($($part),*)
            })*
        }
    };
}

/// The proved library, by its C calls.
pub struct Proved;
/// The proved library, through the typed crate.
pub struct Typed;
/// The second implementation.
pub struct Rival;
/// The scope once more, for no other use than to judge.
pub struct Model;

calls!(declare! {});
calls!(forward! { Proved "proved" takes any feed: true = raw });
calls!(forward! { Rival "rival" = rival });
calls!(forward! { Model "model" = model });

/// A side among others: its name, and how it is given a job.
#[derive(Clone, Copy)]
pub struct Judge {
    pub name: &'static str,
    pub perform: fn(&Job) -> Outcome,
    /// Whether it leaves just what another has left.
    pub agrees: fn(&Job, &Outcome) -> bool,
    /// It judges one call in so many.
    pub every: u64,
    /// It takes any numbers and any line for a feed.
    pub takes_any_feed: bool,
}

pub const fn judge<S: Side>(every: u64) -> Judge {
    Judge { name: S::NAME, perform: perform::<S>, agrees: agrees::<S>, every, takes_any_feed: S::TAKES_ANY_FEED }
}

/// Every side. The first is the one that a run goes on from; the others are compared with it.
pub const JUDGES: &[Judge] = &[judge::<Proved>(1), judge::<Rival>(1), judge::<Model>(2), judge::<Typed>(8)];

/// A test for every side: the generic function of that name as a test in a module of the side's name.
#[macro_export]
macro_rules! on_every_side {
    ($($test:ident)*) => {
        $crate::on_every_side! { proved = Proved: $($test)* }
        $crate::on_every_side! { typed = Typed: $($test)* }
        $crate::on_every_side! { rival = Rival: $($test)* }
        $crate::on_every_side! { model = Model: $($test)* }
    };
    ($module:ident = $side:ident: $($test:ident)*) => {
        mod $module {
            $(#[test]
            fn $test() {
                super::$test::<$crate::sides::$side>();
            })*
        }
    };
}

/// What the typed crate makes of an answer, turned back into the answer's numbers.
impl Side for Typed {
    const NAME: &'static str = "typed";

    fn open(planning: &[u8], calendar: &[u8], book: &mut [u8], table: &mut [u8], used: u64, rows: u64) -> [u64; 6] {
        let mut day = Day::resumed(book, table, Counts { used, rows });
        let done = day.open(planning, calendar);
        on_the_day(done.map(|()| 0), &day)
    }

    fn message(
        dossier: &[u8],
        sender: u8,
        form: u32,
        register: &[u8],
        book: &mut [u8],
        table: &mut [u8],
        used: u64,
        rows: u64,
    ) -> [u64; 6] {
        let mut day = Day::resumed(book, table, Counts { used, rows });
        let done = day.message(dossier, Sender(sender), Form(form), &Register::from_bytes(register));
        on_the_day(done.map(|number| number.map_or(0, |number| number.0.into())), &day)
    }

    fn feed_begin(sender: u8, form: u32, feed: &mut [u64; FEED]) -> u32 {
        let (kept, _) = Feed::lent(Sender(sender), Form(form), &mut [][..]).into_parts();
        *feed = kept.numbers;
        0
    }

    fn feed(part: &[u8], register: &[u8], staging: &mut [u8], line: &mut [u8; LINE], feed: &mut [u64; FEED]) -> u32 {
        let mut resumed = Feed::resumed(Box::new(Kept { numbers: *feed, line: *line }), staging);
        let done = resumed.part(part, &Register::from_bytes(register));
        let (kept, _) = resumed.into_parts();
        (*feed, *line) = (kept.numbers, kept.line);
        done.map_or_else(|refusal| refusal.number(), |()| 0)
    }

    fn feed_end(
        register: &[u8],
        staging: &[u8],
        book: &mut [u8],
        table: &mut [u8],
        used: u64,
        rows: u64,
        feed: &mut [u64; FEED],
    ) -> [u64; 6] {
        let mut day = Day::resumed(book, table, Counts { used, rows });
        let resumed = Feed::resumed(Box::new(Kept { numbers: *feed, line: [0; LINE] }), staging.to_vec());
        let done = match resumed.end(&mut day, &Register::from_bytes(register)) {
            // The feed is gone, so that its numbers are nobody's.
            Ok(number) => {
                *feed = [0; FEED];
                Ok(number.map_or(0, |number| number.0.into()))
            }
            Err(not_ended) => {
                *feed = not_ended.feed.into_parts().0.numbers;
                Err(not_ended.refusal)
            }
        };
        on_the_day(done, &day)
    }

    fn withdraw(number: u32, sender: u8, book: &mut [u8], table: &mut [u8], used: u64, rows: u64) -> [u64; 6] {
        let mut day = Day::resumed(book, table, Counts { used, rows });
        let done = day.withdraw(MessageNumber(number), Sender(sender));
        on_the_day(done.map(|()| 0), &day)
    }

    fn board(
        owner: &[u8],
        stop: &[u8],
        date: u32,
        second: u32,
        horizon: u32,
        table: &[u8],
        rows: u64,
        places: &mut [u32],
    ) -> [u64; 3] {
        let mut own = table.to_vec();
        let day = Day::resumed(&mut [][..], &mut own[..], Counts { used: 0, rows });
        let question = Question { owner, stop, date: Date(date), second, horizon };
        match day.board_in(&question, places) {
            Ok(board) => {
                read_through(board.rows());
                [0, board.len() as u64, board.shown() as u64]
            }
            Err(refusal) => {
                let [value, second] = refusal.values();
                [refusal.number().into(), value, second]
            }
        }
    }
}

fn on_the_day(done: Result<u64, Refusal>, day: &Day<&mut [u8]>) -> [u64; 6] {
    let Counts { used, rows } = day.counts();
    match done {
        Ok(value) => {
            read_through(day.table().expect("an accepted call leaves a sound table").iter());
            [0, value, 0, 0, used, rows]
        }
        Err(refusal) => {
            let dossier = match refusal.dossier() {
                Some(Dossier::Planning) => 1,
                Some(Dossier::Calendar) => 2,
                Some(Dossier::Message) | None => 0,
            };
            let [value, second] = refusal.values();
            [refusal.number().into(), value, second, dossier, used, rows]
        }
    }
}

/// Every field of every row is read, so that a reader that stumbles is seen.
fn read_through<'day>(rows: impl Iterator<Item = zhemdurak::Row<'day>>) {
    for row in rows {
        let texts = row.owner().len() * row.line().len() * row.stop().len() * row.destination().len();
        let codes = (row.status(), row.stop_type(), row.show_cancelled(), row.flexible());
        assert!(texts > 0 && row.date() < Date(21_000_101), "{codes:?}");
        assert_eq!(row.departs().is_none(), row.departure().is_none());
    }
}
