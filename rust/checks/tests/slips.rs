//! The comparison itself: sides with a slip in them are found out, the first byte is named, and the call is cut down.
//! What comes out depends on the seed alone.

use std::cell::RefCell;

use checks::call::{perform, Call, Job, Outcome};
use checks::compare::{job_at, Task};
use checks::difference::{difference, see};
use checks::feeding::Step;
use checks::shrink::shrink;
use checks::sides::{judge, Judge, Rival, Side, JUDGES};

/// The rival, and the rival with a slip in what it leaves.
macro_rules! slipping {
    ($slip:ident) => {
        [
            JUDGES[1],
            Judge {
                name: "slip",
                perform: $slip,
                agrees: |job, other| $slip(job) == *other,
                every: 1,
                takes_any_feed: false,
            },
        ]
    };
}

/// A row that is new in the table counts as not heard.
fn unheard(job: &Job) -> Outcome {
    let mut outcome = perform::<Rival>(job);
    if outcome.answer[0] == 0 && matches!(job.call, Call::Message { .. }) && outcome.answer[5] > job.lent.rows {
        outcome.table[layout::HEARD_AT] ^= 1;
    }
    outcome
}

/// A message's fault of syntax is told one byte late.
fn late(job: &Job) -> Outcome {
    let mut outcome = perform::<Rival>(job);
    outcome.answer[1] += u64::from(outcome.answer[0] == 3 && matches!(job.call, Call::Message { .. }));
    outcome
}

/// Three rows or more cannot be worked with.
fn panics(job: &Job) -> Outcome {
    assert!(job.lent.rows < 3, "three rows");
    perform::<Rival>(job)
}

/// A withdrawal leaves the kind of the book's last entry.
fn forgets(job: &Job) -> Outcome {
    let mut outcome = perform::<Rival>(job);
    if matches!(job.call, Call::Withdraw { .. }) && outcome.answer[0] == 0 {
        let used = outcome.answer[4] as usize;
        outcome.book[used - layout::UPDATE_WIDE] = job.lent.book[used - layout::UPDATE_WIDE];
    }
    outcome
}

/// A message's first row keeps message as true.
fn as_true(job: &Job) -> Outcome {
    let mut outcome = perform::<Rival>(job);
    let show = job.lent.used as usize + layout::UPDATE_BODY_AT + layout::SHOW_CANCELLED_AT;
    if outcome.answer[0] == 0 && matches!(job.call, Call::Message { .. }) && outcome.book.get(show) == Some(&2) {
        outcome.book[show] = 1;
    }
    outcome
}

/// The rival with a slip in its feeds.
struct Feeds<const SLIP: u8>;

/// An LF with which a part begins is lost.
const LOST_LF: u8 = 0;
/// The staging area counts for a byte less.
const BYTE_LESS: u8 = 1;
/// An accepted end leaves the numbers as they were.
const NOT_CLEARED: u8 = 2;
/// A refused end leaves them zero.
const CLEARED: u8 = 3;
/// Lines are counted from the last part's first.
const LINES_OF_PART: u8 = 4;
/// A part makes the staging area's last byte zero.
const LATER_BYTE: u8 = 5;
/// A part of no begun feed begins one.
const BEGINS: u8 = 6;
/// The register that is lent at the end is not looked at.
const OLD_REGISTER: u8 = 7;

/// A feed is begun in the old form, whatever is stated.
const FORM_LOST: u8 = 8;
/// A form that is not known is taken for the old one.
const ANY_FORM: u8 = 9;

thread_local! {
    /// The LFs of all parts but the last, those of the last, and the last part's register.
    static FED: RefCell<(u64, u64, Vec<u8>)> = RefCell::default();
}

impl<const SLIP: u8> Side for Feeds<SLIP> {
    const NAME: &'static str = "slip";

    fn open(planning: &[u8], calendar: &[u8], book: &mut [u8], table: &mut [u8], used: u64, rows: u64) -> [u64; 6] {
        Rival::open(planning, calendar, book, table, used, rows)
    }

    fn message(
        dossier: &[u8],
        sender: u8,
        form: u32,
        register: &[u8],
        book: &mut [u8],
        table: &mut [u8],
        used: u64,
        rows: u64,
    ) -> [u64; 6] {
        let form = if SLIP == ANY_FORM && form > 1 { 0 } else { form };
        Rival::message(dossier, sender, form, register, book, table, used, rows)
    }

    fn feed_begin(sender: u8, form: u32, feed: &mut [u64; 48]) -> u32 {
        FED.take();
        let lost = SLIP == FORM_LOST || SLIP == ANY_FORM && form > 1;
        Rival::feed_begin(sender, if lost { 0 } else { form }, feed)
    }

    fn feed(part: &[u8], register: &[u8], staging: &mut [u8], line: &mut [u8; 4_096], feed: &mut [u64; 48]) -> u32 {
        let lines = part.iter().filter(|&&byte| byte == b'\n').count() as u64;
        FED.with_borrow_mut(|(before, last, kept)| {
            (*before, *last) = (*before + *last, lines);
            *kept = register.to_vec();
        });
        let part = if SLIP == LOST_LF { part.strip_prefix(b"\n").unwrap_or(part) } else { part };
        if SLIP == BEGINS && *feed == [0; 48] {
            Rival::feed_begin(7, 0, feed);
        }
        let room = staging.len() - usize::from(SLIP == BYTE_LESS && !staging.is_empty());
        let number = Rival::feed(part, register, &mut staging[..room], line, feed);
        if let (LATER_BYTE, [.., last]) = (SLIP, staging) {
            *last = 0;
        }
        number
    }

    fn feed_end(
        register: &[u8],
        staging: &[u8],
        book: &mut [u8],
        table: &mut [u8],
        used: u64,
        rows: u64,
        feed: &mut [u64; 48],
    ) -> [u64; 6] {
        let (before, _, kept) = FED.with_borrow(|fed| fed.clone());
        let register = if SLIP == OLD_REGISTER { &kept } else { register };
        let numbers = *feed;
        let mut answer = Rival::feed_end(register, staging, book, table, used, rows, feed);
        match SLIP {
            NOT_CLEARED if answer[0] == 0 => *feed = numbers,
            CLEARED if answer[0] != 0 => *feed = [0; 48],
            LINES_OF_PART if matches!(answer[0], 4..=6 | 15) => answer[1] = answer[1].saturating_sub(before),
            _ => {}
        }
        answer
    }

    fn withdraw(number: u32, sender: u8, book: &mut [u8], table: &mut [u8], used: u64, rows: u64) -> [u64; 6] {
        Rival::withdraw(number, sender, book, table, used, rows)
    }

    fn board(
        owner: &[u8],
        stop: &[u8],
        date: u32,
        second: u32,
        horizon: u32,
        table: &[u8],
        rows: u64,
        places: &mut [u32],
    ) -> [u64; 3] {
        Rival::board(owner, stop, date, second, horizon, table, rows, places)
    }
}

fn first_difference(judges: &[Judge], threads: usize) -> (u64, Job, String) {
    let task = Task { calls: 4_000, seed: 1, threads, judges };
    let found = task.run(|_| {}).err().expect("the slip is found");
    (found.index, found.job, found.words)
}

fn cut_down(judges: &[Judge]) -> (Job, String) {
    let (_, job, _) = first_difference(judges, 1);
    let small = shrink(job, 20_000, |job| difference(job, &see(job, judges)).is_some());
    let words = difference(&small, &see(&small, judges)).expect("it differs still");
    (small, words)
}

#[test]
fn the_first_byte_is_named() {
    let (job, words) = cut_down(&slipping!(unheard));
    assert_eq!(words, "message: tables differ first at byte 66 (row 0, its heard): 1 by rival, 0 by slip");
    let Call::Message { dossier, register, .. } = job.call else { panic!("a message") };
    assert_eq!(dossier.iter().filter(|&&byte| byte == b'\n').count(), 4, "{}", dossier.escape_ascii());
    assert_eq!((register.len(), job.lent.used, job.lent.rows), (layout::PAIR, 0, 0));
}

#[test]
fn a_call_is_cut_down_to_what_matters() {
    let (job, words) = cut_down(&slipping!(late));
    assert_eq!(words.split(" and ").next(), Some("message: answers [3, 0, 0, 0, 0, 0]"), "{words}");
    assert!(words.ends_with("differ in their value: 0 by rival, 1 by slip"), "{words}");
    let Call::Message { dossier, register, .. } = job.call else { panic!("a message") };
    assert_eq!([dossier.len(), register.len(), job.lent.book.len(), job.lent.table.len()], [0; 4]);
}

#[test]
fn a_panic_is_a_difference() {
    let (job, words) = cut_down(&slipping!(panics));
    assert!(words.ends_with(": slip panicked: three rows"), "{words}");
    assert!(job.lent.rows >= 3);
}

#[test]
fn an_entry_of_the_book_is_named() {
    let (job, words) = cut_down(&slipping!(forgets));
    assert_eq!(words, "withdraw: books differ first at byte 0 (entry 0, its kind): 3 by rival, 2 by slip");
    assert_eq!((job.lent.used, job.lent.book.len()), (72, 72));
}

#[test]
fn slips_of_forms_are_seen() {
    let (job, words) = cut_down(&slipping!(as_true));
    assert_eq!(words, "message: books differ first at byte 69 (entry 0, its show cancelled): 2 by rival, 1 by slip");
    assert!(matches!(job.call, Call::Message { form: 1, .. }));
    let (_, words) = cut_down(&[JUDGES[1], judge::<Feeds<ANY_FORM>>(1)]);
    assert!(words.contains("18, 0, 0, 0, 0, 0]") && words.contains("by rival"), "{words}");
    let (job, _) = cut_down(&[JUDGES[1], judge::<Feeds<FORM_LOST>>(1)]);
    assert!(matches!(job.call, Call::Feed(feeding) if feeding.form > 0));
    let alone = first_difference(&[judge::<Feeds<FORM_LOST>>(1)], 1).2;
    assert!(alone.starts_with("feed_end: slip: "), "a side by itself: {alone}");
}

/// What is said of a slip in feeds, and the steps that are left of its job.
fn cut_down_feed<const SLIP: u8>() -> (Vec<Step>, String) {
    let (job, words) = cut_down(&[JUDGES[1], judge::<Feeds<SLIP>>(1)]);
    let Call::Feed(feeding) = job.call else { panic!("a feed") };
    (feeding.steps, words)
}

#[test]
fn slips_of_feeds_are_seen() {
    let (steps, words) = cut_down_feed::<LOST_LF>();
    // by what is staged, or by the end, whichever comes first
    let staged = words.ends_with("(rows from 0) by rival, nothing by slip");
    assert!(staged || words == "feed_end: slip: the end's answer is not that of the one call", "{words}");
    assert!(matches!(&steps[..], [Step::Begin, Step::Part { .. }, ..]) && steps.len() <= 4, "{steps:?}");
    let (steps, words) = cut_down_feed::<BYTE_LESS>();
    assert!(
        words.ends_with("writes into the staging area: bytes 0 to 65 (rows from 0) by rival, nothing by slip"),
        "{words}"
    );
    assert!(matches!(&steps[..], [Step::Begin, Step::Part { .. }]), "{steps:?}");
    let (_, words) = cut_down_feed::<NOT_CLEARED>();
    assert_eq!(words, "feed_end: slip: an accepted end leaves numbers that are not zero");
    let (steps, words) = cut_down_feed::<CLEARED>();
    assert_eq!(words, "feed_end: slip: a refused end changed the feed");
    assert!(matches!(&steps[..], [.., Step::End { .. }]), "{steps:?}");
    let (_, words) = cut_down_feed::<LINES_OF_PART>();
    assert_eq!(words, "feed_end: slip: the end's answer is not that of the one call");
    let (_, words) = cut_down_feed::<LATER_BYTE>();
    assert!(words.starts_with("feed_end: step 0, a part") || words.contains("a refused part changed"), "{words}");
    let (steps, words) = cut_down_feed::<BEGINS>();
    assert!(words.ends_with("a part, is answered with: [1, 0, 0, 0, 0, 0] by rival, [0, 0, 0, 0, 0, 0] by slip"));
    assert!(matches!(&steps[..], [Step::Part { .. }]), "{steps:?}");
    let (_, words) = cut_down_feed::<OLD_REGISTER>();
    assert!(words.contains("an end, is answered with: [") || words.ends_with("not that of the one call"), "{words}");
}

/// A side by itself: what it makes of a dossier in parts is held against its own one call.
#[test]
fn a_feed_is_held_against_the_one_call() {
    let words = |judge: Judge| first_difference(&[judge], 1).2;
    let other_answer = "feed_end: slip: the end's answer is not that of the one call";
    assert_eq!(words(judge::<Feeds<LOST_LF>>(1)), other_answer);
    assert_eq!(words(judge::<Feeds<LINES_OF_PART>>(1)), other_answer);
    let by_rows = "feed_end: slip: 14 goes by something else than the rows of the dossier";
    assert_eq!(words(judge::<Feeds<BYTE_LESS>>(1)), by_rows);
}

#[test]
fn threads_change_nothing() {
    for judges in [slipping!(unheard), slipping!(late), slipping!(forgets)] {
        let one = first_difference(&judges, 1);
        assert_eq!(one, first_difference(&judges, 3));
        assert_eq!(one.1, job_at(1, one.0, JUDGES[1]));
    }
    let tally = |threads| Task { calls: 3_021, seed: 9, threads, judges: &JUDGES[..2] }.run(|_| {});
    let (one, three) = (tally(1).ok().expect("no difference"), tally(3).ok().expect("no difference"));
    assert_eq!(one.to_string(), three.to_string());
    assert!(one.to_string().ends_with("total: 3021"));
}
