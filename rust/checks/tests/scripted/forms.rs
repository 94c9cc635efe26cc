//! The forms of a message.

use checks::on_every_side;
use checks::sides::{Proved, Side};

use crate::desk::*;

on_every_side! {
    three_words_on_a_board
    words_of_the_other_form
    unknown_forms
    one_after_another
}

const NEW: u32 = 1;

fn cxx() -> Vec<u8> {
    pair(7, "CXX")
}

/// A message in the 8.5 form of the planned passage, with its last three fields.
fn said(status: &str, optionals: &str) -> Vec<u8> {
    let labels = LABELS.replace("ShowCancelledTrip", "ShowCancelledJourney");
    dossier("DATEDPASSTIME", &labels, &[row(1, status).replace("\\0|\\0|\\0", optionals)])
}

/// 2, 8.2: what each word is kept as, and whether the cancelled passage is on the board.
fn three_words_on_a_board<S: Side>() {
    for (word, kept, shown) in [("true", 1, 1), ("false", 0, 0), ("message", 2, 0), ("\\0", 1, 1)] {
        let mut desk = planned::<S>();
        assert_eq!(desk.message_in(NEW, &said("CANCEL", &format!("{word}|\\0|true")), 7, &cxx())[..2], [0, 1]);
        assert_eq!((desk.row(0)[55], desk.row(0)[63], desk.row(0)[65]), (1, kept, 1));
        assert_eq!(desk.board(20160301, 36_000, 600, &mut [9; 2]), [0, shown, shown], "{word}");
    }
}

/// 2.3: each form has its own words, whole and exact.
fn words_of_the_other_form<S: Side>() {
    let mut desk = planned::<S>();
    for (optionals, column) in [
        ("1|\\0|\\0", 14),
        ("TRUE|\\0|\\0", 14),
        ("Message|\\0|\\0", 14),
        ("\\0|true|\\0", 15),
        ("\\0|\\0|1", 16),
        ("\\0|\\0|message", 16),
        ("\\0|\\0|FALSE", 16),
    ] {
        assert_eq!(desk.message_in(NEW, &said("CANCEL", optionals), 7, &cxx())[..3], [5, 4, column], "{optionals}");
    }
    for (optionals, column) in [("true|\\0|\\0", 14), ("message|\\0|\\0", 14), ("\\0|\\0|false", 16)] {
        let old = updates(&[row(1, "CANCEL").replace("\\0|\\0|\\0", optionals)]);
        assert_eq!(desk.message(&old, 7, &cxx())[..3], [5, 4, column], "{optionals}");
    }
    assert_eq!(desk.message_in(NEW, &said("CANCEL", "false|REALTIME|false"), 7, &cxx())[..2], [0, 1]);
    assert_eq!(desk.row(0)[63..], [0, 3, 0, 1]);
}

/// 7.1: 18 behind 1 and before 2; of a feed at its end, which is read as in the old form.
fn unknown_forms<S: Side>() {
    let mut desk = planned::<S>();
    let good = updates(&[row(1, "DRIVING")]);
    for form in [2, 255, 256, 1 << 31, u32::MAX] {
        assert_eq!(desk.message_in(form, &good, 7, &cxx()), [18, 0, 0, 0, 67, 1]);
        assert_eq!(desk.message_in(form, &[0; 65_537], 7, &cxx())[0], 18);
        assert_eq!(desk.message_in(form, &good, 7, &[0])[0], 1);
        let mut feed = Feed::<S>::begun_in(form, 7, 66);
        assert_eq!(feed.part(&good, &cxx()), 0);
        assert_eq!(feed.staging[63..], [255, 255, 255], "read as in the old form");
        assert_eq!(desk.end(&mut feed, &cxx(), 66), [18, 0, 0, 0, 67, 1]);
        assert_eq!(desk.end(&mut feed, &[0], 66)[0], 1);
        feed.begin(7);
        assert_eq!(feed.part(&good, &cxx()), 0);
        assert_eq!(desk.clone().end(&mut feed, &cxx(), 66)[0], 0, "begun anew in a form that is known");
    }
}

/// 3.1: what a row has where is the same in both; what one says stays until the other says something else.
fn one_after_another<S: Side>() {
    let mut desk = planned::<S>();
    let old = |optionals: &str| updates(&[row(1, "CANCEL").replace("\\0|\\0|\\0", optionals)]);
    assert_eq!(desk.message_in(NEW, &said("CANCEL", "message|\\0|true"), 7, &cxx())[0], 0);
    let before = desk.row(0).to_vec();
    assert_eq!(desk.message(&old("\\0|\\0|\\0"), 7, &cxx())[0], 0);
    assert_eq!(desk.row(0), before, "it says nothing");
    assert_eq!(desk.message(&old("1|\\0|0"), 7, &cxx())[0], 0);
    assert_eq!(desk.row(0)[63..66], [1, 0, 0]);
    assert_eq!(desk.withdraw(3, 7)[0], 0);
    assert_eq!(desk.row(0), before);
    assert_eq!((desk.withdraw(1, 0)[0], desk.withdraw(2, 0)[0]), (0, 0));
    assert_eq!(desk.row(0)[63..], [1, 0, 0, 0], "the plan's row");
}

/// What the proved library keeps: the form is the third number of a feed, any of 32 bits; a larger one is that of no begun feed.
#[test]
fn the_third_number_of_a_feed() {
    let new = said("CANCEL", "message|\\0|true");
    for (form, answer, show) in [(0, 5, 0xCC), (1, 0, 2), (2, 18, 0xCC), (u32::MAX, 18, 0xCC)] {
        let mut feed = Feed::<Proved>::begun(7, 66);
        assert_eq!(feed.numbers[..3], [1, 7, 0]);
        feed.numbers[2] = form.into();
        let mut stated = Feed::<Proved>::begun_in(form, 7, 66);
        assert!(stated.numbers == feed.numbers);
        assert_eq!((feed.part(&new, &cxx()), stated.part(&new, &cxx())), (0, 0));
        assert!(stated.numbers == feed.numbers && stated.staging == feed.staging && feed.staging[63] == show);
        assert_eq!(planned::<Proved>().end(&mut feed, &cxx(), 66)[0], answer, "{form}");
    }
    for form in [1 << 32, 1 << 32 | 1, u64::MAX] {
        let mut feed = Feed::<Proved>::begun_in(1, 7, 66);
        feed.numbers[2] = form;
        assert_eq!(feed.part(&new, &cxx()), 1);
        assert_eq!(planned::<Proved>().end(&mut feed, &cxx(), 66)[0], 1, "{form}");
    }
}
