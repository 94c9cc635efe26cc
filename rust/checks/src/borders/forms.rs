//! 3.1: the forms of a message: what each wants, what its words are kept as, and what a form that is not known gets.

use crate::feeding::{Feeding, Step};
use crate::lines::*;
use crate::panel::{Day, Panel, Question};
use crate::worlds::columns::SHOW_CANCELLED;
use crate::worlds::state::State;

use super::sizes::update_body;

/// Numbers that are no form, such as are one in their lowest bytes among them.
pub const UNKNOWN: [u32; 12] = [2, 3, 4, 254, 255, 256, 257, 65_536, 65_537, 1 << 24, 1 << 31, u32::MAX];

/// An optional column: its name, where its content is kept, and each of its words with what it is kept as.
type Optional = (&'static str, usize, &'static [(&'static str, u8)]);

const FLEXIBLE: Optional = ("ShowFlexibleTrip", 64, &[("TRUE", 1), ("FALSE", 2), ("REALTIME", 3)]);

/// The optional columns by form.
const OPTIONAL: [[Optional; 3]; 2] = [
    [("ShowCancelledTrip", 63, &[("0", 0), ("1", 1)]), FLEXIBLE, ("Monitored", 65, &[("0", 0), ("1", 1)])],
    [
        ("ShowCancelledJourney", 63, &[("false", 0), ("true", 1), ("message", 2)]),
        FLEXIBLE,
        ("Monitored", 65, &[("false", 0), ("true", 1)]),
    ],
];

fn ours() -> Vec<u8> {
    pair(7, b"CXX")
}

/// A message of this line in this form, whole and in two parts: the answer, and the body that was written where it was accepted.
fn said(panel: &Panel, form: u32, line: &Line) -> (Vec<u64>, Option<Vec<u8>>) {
    let dossier = message(std::slice::from_ref(line));
    let mut day = Day::new(panel, 72, 67);
    let answer = day.message_in(form, dossier.clone(), 7, &ours());
    let cut = dossier.len() - 9;
    let mut fed = Day::new(panel, 72, 67);
    let feeding = Feeding::of(7, &[&dossier[..cut], &dossier[cut..]], &ours(), 66).in_form(form);
    assert_eq!((fed.feed(feeding).answer, &fed.state), (answer, &day.state), "whole and in parts");
    (answer[..3].to_vec(), (answer[0] == 0).then(|| day.state.book[6..72].to_vec()))
}

/// Every word of either form, and much that is like one, in the optional columns of both: each column has its form's own words alone.
pub fn words(panel: &Panel) {
    let fields = [
        "0",
        "1",
        "2",
        "00",
        "01",
        "-1",
        "true",
        "false",
        "message",
        "TRUE",
        "FALSE",
        "MESSAGE",
        "True",
        "False",
        "Message",
        "REALTIME",
        "realtime",
        "tru",
        "truee",
        "fals",
        "falsey",
        "messag",
        "messages",
        " true",
        "true ",
        "truefalse",
        "yes",
        "no",
        "x",
        "",
        "\\i",
        "true\\p",
        "\\itrue",
        "messagefalse",
    ];
    for form in 0..2 {
        for (name, at, words) in OPTIONAL[form as usize] {
            for field in fields {
                let line = Line::update_in(form).with(name, field);
                let expected = words.iter().find(|(word, _)| *word == field).map(|(_, kept)| {
                    let mut body = update_body();
                    body[at] = *kept;
                    body
                });
                let answer = if expected.is_some() { vec![0, 1, 0] } else { vec![5, 4, line.column(name)] };
                assert_eq!(said(panel, form, &line), (answer, expected), "{name} {field:?} in form {form}");
            }
            let nothing = Line::update_in(form).with(name, "\\0");
            assert_eq!(said(panel, form, &nothing).1, Some(update_body()), "no content of {name}");
            let absent = Line::update_in(form).without(name);
            assert_eq!(said(panel, form, &absent).1, Some(update_body()), "{name} is absent");
        }
    }
}

/// Every byte of each word of the 8.5 form changed to every other.
pub fn one_byte(panel: &Panel) {
    for (name, _, words) in OPTIONAL[1] {
        for word in words.iter().map(|(word, _)| word.as_bytes()) {
            for place in 0..word.len() {
                for byte in (32..=255).filter(|&byte| byte != b'\\' && byte != b'|') {
                    let mut field = word.to_vec();
                    field[place] = byte;
                    let same = field == word;
                    let line = Line::update_in(1).with(name, &field);
                    let answer = Day::new(panel, 72, 67).message_in(1, message(&[line]), 7, &ours());
                    assert_eq!(answer[0] == 0, same, "{name} {}", field.escape_ascii());
                }
            }
        }
    }
}

/// Each form's own name is wanted there, so that it stands once; in the other it is of no interest, may recur and have any content.
pub fn names(panel: &Panel) {
    let bare = Line::update().without(SHOW_CANCELLED[0]).without("ShowFlexibleTrip").without("Monitored");
    let names = bare.names().join("|");
    let fields = String::from_utf8(bare.fields().join(&b'|')).expect("plain");
    let ask = |form: u32, before: &[(&str, &str)], behind: &[(&str, &str)]| {
        let label = |columns: &[(&str, &str)]| columns.iter().map(|(name, _)| name.to_string()).collect::<Vec<_>>();
        let field = |columns: &[(&str, &str)]| columns.iter().map(|(_, field)| field.to_string()).collect::<Vec<_>>();
        let labels = [label(before), vec![names.clone()], label(behind)].concat().join("|");
        let row = [field(before), vec![fields.clone()], field(behind)].concat().join("|");
        let dossier = format!("\\G\r\n\\TDATEDPASSTIME\r\n\\L{labels}\r\n{row}\r\n").into_bytes();
        let mut day = Day::new(panel, 72, 67);
        let answer = day.message_in(form, dossier, 7, &ours());
        (answer[..3].to_vec(), (answer[0] == 0).then(|| day.state.book[69..72].to_vec()))
    };
    for form in 0..2 {
        let [own, other] = [form, 1 - form].map(|form| SHOW_CANCELLED[form as usize]);
        let (no, others_yes) = (["0", "false"][form as usize], ["true", "1"][form as usize]);
        let kept = |show| (vec![0, 1, 0], Some(vec![show, 255, 255]));
        assert_eq!(ask(form, &[], &[]), kept(255));
        assert_eq!(ask(form, &[(own, no)], &[]), kept(0));
        for content in ["", "\\0", "0", "1", "2", "true", "message", "\\i\\p", "anything at all, of any length"] {
            assert_eq!(ask(form, &[(other, content)], &[]), kept(255), "{other} is not wanted");
            assert_eq!(ask(form, &[(other, content)], &[(other, content), (other, no)]), kept(255), "it may recur");
            assert_eq!(ask(form, &[(other, content), (own, no)], &[(other, content)]), kept(0), "{own} counts");
            assert_eq!(ask(form, &[(other, content)], &[(own, no)]), kept(0));
        }
        assert_eq!(ask(form, &[(own, no)], &[(own, no)]), (vec![4, 3, 0], None), "{own} twice");
        assert_eq!(ask(form, &[(other, no), (own, no)], &[(own, no), (other, no)]), (vec![4, 3, 0], None));
        assert_eq!(ask(form, &[(other, "x")], &[("Monitored", others_yes)]), (vec![5, 4, 15], None));
        assert_eq!(ask(form, &[(other, "x")], &[("x", "x"), (own, others_yes)]), (vec![5, 4, 16], None));
        for like in [own.to_lowercase(), format!("{own} "), own[..own.len() - 1].to_string(), "ShowCancelled".into()] {
            assert_eq!(ask(form, &[(&like, "x")], &[(&like, "x")]), kept(255), "{like} is another name");
        }
    }
}

/// A form that is not known gets 18, whatever the dossier is and says; behind 1, and before all others. A feed is read as in the old form.
pub fn unknown(panel: &Panel) {
    let old = message(&[Line::update().with("ShowCancelledTrip", "0").with("Monitored", "1")]);
    let new = message(&[Line::update_in(1).with("ShowCancelledJourney", "message").with("Monitored", "true")]);
    let mut body = update_body();
    (body[63], body[65]) = (0, 1);
    let nothing = vec![0xcc; 66];
    let dossiers: [(Vec<u8>, &[u8]); 9] = [
        (old.clone(), &body),
        (new, &nothing),
        (Vec::new(), &nothing),
        (b"\\G\r\n".to_vec(), &nothing),
        (b"\\G\r\nx".to_vec(), &nothing),
        ([&old[..], b"one field\r\n"].concat(), &body),
        (widened(old.clone(), 65_536), &body),
        (vec![b'x'; 65_537], &nothing),
        (with_group_line(old, 4_097), &nothing),
    ];
    for form in UNKNOWN {
        for (dossier, staged) in &dossiers {
            let ask =
                |state: State, register: &[u8]| Day::of(panel, state).message_in(form, dossier.clone(), 7, register);
            let room = State { book: vec![0; 72], table: vec![0; 67], used: 0, rows: 0 };
            let none = State { book: Vec::new(), table: Vec::new(), used: 0, rows: 0 };
            assert_eq!(ask(room.clone(), &ours()), [18, 0, 0, 0, 0, 0], "{form}");
            assert_eq!(ask(none, &[]), [18, 0, 0, 0, 0, 0], "before 6 to 8");
            assert_eq!(ask(room.clone(), &[7])[0], 1, "the register before the form");
            assert_eq!(ask(State { rows: 1, ..room.clone() }, &ours())[0], 1, "the table before the form");
            assert_eq!(ask(State { used: 72, ..room.clone() }, &ours())[0], 1, "the book before the form");
            let cut = dossier.len() / 2;
            let feeding = Feeding::of(7, &[&dossier[..cut], &dossier[cut..]], &ours(), 66).in_form(form);
            let outcome = Day::of(panel, room.clone()).feed(feeding.clone());
            assert_eq!(outcome.answer, [18, 0, 0, 0, 0, 0], "{form} at the end");
            assert_eq!(outcome.staging, *staged, "{form}, read as the old form");
            let unsound = Day::of(panel, State { rows: 1, ..room }).feed(feeding);
            assert_eq!(unsound.answer[0], 1, "the table before the form");
        }
    }
}

/// Messages in both forms about one passage, after one another, and their withdrawals: a row does not tell in which form it came, and a
/// cancelled one is on the board only where show cancelled is 1.
pub fn on_a_day(panel: &Panel) {
    let question = Question { owner: b"CXX", stop: b"S1", date: 20_160_301, second: 36_000, horizon: 600 };
    let line = |form: u32, status: &str, field: &str| {
        Line::update_in(form).with("TripStopStatus", status).with(SHOW_CANCELLED[form as usize], field)
    };
    // The form, the status, what is said, what is held then, and whether the passage is shown.
    let steps = [
        (1, "CANCEL", "message", 2, false),
        (0, "CANCEL", "\\0", 2, false),
        (1, "CANCEL", "\\0", 2, false),
        (0, "CANCEL", "1", 1, true),
        (1, "DRIVING", "message", 2, true),
        (1, "CANCEL", "false", 0, false),
        (1, "CANCEL", "true", 1, true),
        (0, "CANCEL", "0", 0, false),
        (1, "ARRIVED", "message", 2, true),
        (0, "CANCEL", "\\0", 2, false),
    ];
    let mut day = Day::new(panel, 1_000, 67);
    assert_eq!(day.open(planning(&[Line::pass_time()]), calendar(&[Line::validity()]))[5], 1);
    let shown = |day: &mut Day| day.board(&question, 1).1[2] == 1;
    let mut before = Vec::new();
    for (form, status, field, held, on_board) in steps {
        before.push(day.state.table.clone());
        assert_eq!(day.message_in(form, message(&[line(form, status, field)]), 7, &ours())[0], 0);
        assert_eq!((day.state.table[63], shown(&mut day)), (held, on_board), "{status} {field} in form {form}");
    }
    for (place, table) in before.iter().enumerate().rev() {
        assert_eq!(day.withdraw(place as u32 + 1, 7)[0], 0);
        assert_eq!(day.state.table, *table, "the last taken back");
    }
    assert!(shown(&mut day), "the plan again");
}

/// A dossier in the 8.5 form cut at every place and byte by byte; and begun anew, ended again, with the form kept.
pub fn cuts(panel: &Panel) {
    let line = |shown: &str| Line::update_in(1).with("ShowCancelledJourney", shown).with("Monitored", "true");
    let whole = message(&[line("message"), line("\\0").with("VehicleJourneyNumber", "2")]);
    let mut bodies = [update_body(), update_body()];
    for (place, body) in bodies.iter_mut().enumerate() {
        (body[27], body[63], body[65]) = (place as u8 + 1, [2, 255][place], 1);
    }
    let fed = |parts: &[&[u8]]| {
        let outcome = Day::new(panel, 144, 134).feed(Feeding::of(7, parts, &ours(), 132).in_form(1));
        assert_eq!((outcome.answer, outcome.staging), ([0, 1, 0, 0, 144, 2], bodies.concat()));
    };
    for at in 0..=whole.len() {
        fed(&[&whole[..at], &whole[at..]]);
    }
    fed(&whole.chunks(1).collect::<Vec<_>>());
    let again = Feeding::of(7, &[&whole], &ours(), 132).in_form(1);
    let mut steps = vec![Step::Begin, again.steps[1].clone()];
    steps.extend(again.steps.clone());
    steps.insert(4, Step::End { register: ours(), staging: 131, less: [0, 0] });
    let outcome = Day::new(panel, 144, 134).feed(Feeding { steps, ..again });
    assert_eq!(outcome.steps.iter().map(|seen| seen.answer[0]).collect::<Vec<_>>(), [0, 0, 0, 0, 14, 0]);
}
