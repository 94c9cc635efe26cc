//! A day through the typed crate alone.

use zhemdurak::{
    layout, Counts, Date, Day, Dossier, Feed, Flexible, Form, Kept, Question, Refusal, Register, Sender, ShowCancelled,
    Status, StopType, Time,
};

const PASSES: &str = "DataOwnerCode|LocalServiceLevelCode|LinePlanningNumber|VehicleJourneyNumber|FortifyOrderNumber|\
    UserStopCode|UserStopOrderNumber|DestinationCode|TargetArrivalTime|TargetDepartureTime|JourneyStopType";
const UPDATES: &str = "DataOwnerCode|OperationDate|LinePlanningNumber|VehicleJourneyNumber|FortifyOrderNumber|\
    UserStopCode|UserStopOrderNumber|DestinationCode|LastUpdateTimeStamp|TripStopStatus|ExpectedArrivalTime|\
    ExpectedDepartureTime|JourneyStopType|ShowFlexibleTrip|Monitored";

fn dossier(table: &str, labels: &str, rows: &[&str]) -> Vec<u8> {
    let rows: String = rows.iter().map(|row| format!("{row}\r\n")).collect();
    format!("\\G\r\n\\T{table}\r\n\\L{labels}\r\n{rows}").into_bytes()
}

fn planning() -> Vec<u8> {
    let rows = ["CXX|w|A031|7|0|S1|1|END|\\0|10:00:00|FIRST", "CXX|w|A031|8|0|S1|1|END|\\0|10:05:00|FIRST"];
    dossier("LOCALSERVICEGROUPPASSTIME", PASSES, &rows)
}

fn calendar() -> Vec<u8> {
    let labels = "DataOwnerCode|LocalServiceLevelCode|OperationDate";
    dossier("LOCALSERVICEGROUPVALIDITY", labels, &["CXX|w|2016-03-01"])
}

fn driving() -> Vec<u8> {
    let row = "CXX|2016-03-01|A031|7|0|S1|1|OTHER|2016-03-01T09:00:00+01:00|DRIVING|\\0|10:07:30|FIRST|REALTIME|1";
    dossier("DATEDPASSTIME", UPDATES, &[row])
}

fn opened() -> Day {
    let mut day = Day::new();
    day.open(&planning(), &calendar()).expect("a plan");
    day
}

fn registered() -> Register {
    let mut register = Register::new();
    register.add(Sender(7), "CXX").expect("a pair");
    register
}

const MORNING: Question = Question { owner: b"CXX", stop: b"S1", date: Date(20160301), second: 36_000, horizon: 3_600 };

#[test]
fn a_row_by_its_fields() {
    let mut day = opened();
    let plan = day.table().expect("sound").row(0).expect("a row");
    assert_eq!((plan.owner(), plan.date(), plan.line(), plan.journey()), ("CXX", Date(20160301), "A031", 7));
    assert_eq!((plan.fortify(), plan.stop(), plan.order(), plan.destination()), (0, "S1", 1, "END"));
    assert_eq!((plan.timestamp(), plan.status(), plan.heard()), (None, Status::Planned, false));
    assert_eq!((plan.arrival(), plan.departure()), (None, Some(Time::new(10, 0, 0))));
    assert_eq!((plan.stop_type(), plan.show_cancelled()), (StopType::First, ShowCancelled::True));
    assert_eq!((plan.flexible(), plan.monitored()), (Flexible::NotSaid, false));
    day.message(&driving(), Sender(7), Form::OLD, &registered()).expect("taken");
    let row = day.table().expect("sound").row(0).expect("a row");
    assert_eq!((row.timestamp(), row.status(), row.heard()), (Some(1_456_819_200), Status::Driving, true));
    assert_eq!((row.destination(), row.departure()), ("OTHER", Some(Time::new(10, 7, 30))));
    assert_eq!((row.flexible(), row.monitored()), (Flexible::Realtime, true));
    assert_eq!(format!("{} {:>8}", row.departs().expect("one"), row.status()), "2016-03-01 10:07:30  DRIVING");
    assert!(day.table().expect("sound").row(2).is_none());
}

#[test]
fn a_board_by_departure_and_cut() {
    let mut day = opened();
    day.message(&driving(), Sender(7), Form::OLD, &registered()).expect("taken");
    let board = day.board(&MORNING).expect("a board");
    assert_eq!((board.len(), board.shown(), board.places()), (2, 2, &[1, 0][..]));
    assert_eq!(board.rows().map(|row| row.journey()).collect::<Vec<_>>(), [8, 7]);
    let mut places = [9; 1];
    let cut = day.board_in(&MORNING, &mut places).expect("a board");
    assert_eq!((cut.len(), cut.shown(), cut.is_empty()), (1, 2, false));
    assert_eq!(cut.rows().next().map(|row| row.journey()), Some(8));
    let nowhere = day.board(&Question { stop: b"S2", ..MORNING }).expect("a board");
    assert!(nowhere.is_empty() && nowhere.rows().next().is_none());
    assert_eq!(day.board(&Question { stop: b"", ..MORNING }).err(), Some(Refusal::OutOfRange));
}

/// A board gives no counts that could be taken for the day's: after one, the next message is the next message.
#[test]
fn a_board_between_messages_loses_nothing() {
    let (mut day, register) = (opened(), registered());
    assert_eq!(
        day.message(&driving(), Sender(7), Form::OLD, &register).expect("taken").map(|number| number.0),
        Some(1)
    );
    day.board(&MORNING).expect("a board");
    let before = day.counts();
    assert_eq!(
        day.message(&driving(), Sender(7), Form::OLD, &register).expect("taken").map(|number| number.0),
        Some(2)
    );
    assert_eq!(day.counts(), Counts { used: before.used + 72, rows: 2 });
}

#[test]
fn a_refused_call_leaves_the_day() {
    let (mut day, register) = (opened(), registered());
    let before = (day.counts(), day.book_bytes().to_vec(), day.table_bytes().to_vec());
    let dossier = Dossier::Calendar;
    assert_eq!(day.open(&planning(), b"\\G\n"), Err(Refusal::Syntax { dossier, offset: 2 }));
    assert_eq!(
        day.message(&[b' '; 65_537], Sender(7), Form::OLD, &register),
        Err(Refusal::TooLong { dossier: Dossier::Message })
    );
    assert_eq!(day.message(&driving(), Sender(8), Form::OLD, &register), Err(Refusal::NotRegistered { line: 4 }));
    assert_eq!(day.withdraw(zhemdurak::MessageNumber(1), Sender::DESK), Err(Refusal::NoMessage));
    assert_eq!((day.counts(), day.book_bytes().to_vec(), day.table_bytes().to_vec()), before);
    assert_eq!(day.message(b"\\G\r\n", Sender(7), Form::OLD, &register), Ok(None));
}

#[test]
fn a_day_kept_and_taken_up_again() {
    let (book, table, counts) = opened().into_parts();
    let mut again = Day::resumed(book.clone(), table.clone(), counts);
    assert_eq!(again.message(&driving(), Sender(7), Form::OLD, &registered()).map(|number| number.is_some()), Ok(true));
    let mut wrong = Day::resumed(book, table, Counts { used: counts.used + 1, rows: 1 << 60 });
    assert_eq!(wrong.message(&driving(), Sender(7), Form::OLD, &registered()), Err(Refusal::Unsound));
    assert_eq!(wrong.table().err(), Some(Refusal::Unsound));
    assert_eq!(wrong.board(&MORNING).err(), Some(Refusal::Unsound));
    assert_eq!(wrong.open(&planning(), &calendar()), Ok(()), "an opening reads nothing of what was there");
    assert_eq!(wrong.counts(), counts);
}

#[test]
fn a_day_in_lent_bytes() {
    let (mut book, mut table) = (vec![7; 2 * layout::PLAN_WIDE], vec![7; 2 * layout::ROW]);
    let mut day = Day::lent(&mut book[..], &mut table[..]);
    day.open(&planning(), &calendar()).expect("just enough room");
    assert_eq!(day.message(&driving(), Sender(7), Form::OLD, &registered()), Err(Refusal::BookShort));
    assert_eq!(day.counts().rows, 2);
    assert_eq!(Day::with_room(66, 2).open(&planning(), &calendar()), Err(Refusal::BookShort));
    assert_eq!(Day::with_room(134, 1).open(&planning(), &calendar()), Err(Refusal::TableShort));
}

fn fed(parts: &[&[u8]]) -> Feed {
    let mut feed = Feed::begin(Sender(7), Form::OLD);
    for part in parts {
        feed.part(part, &registered()).expect("a begun feed takes any part");
    }
    feed
}

/// Wherever the dossier is cut, the day is that of the one call.
#[test]
fn a_message_in_parts() {
    let (dossier, register, mut whole) = (driving(), registered(), opened());
    let number = whole.message(&dossier, Sender(7), Form::OLD, &register).expect("taken");
    for cut in 0..=dossier.len() {
        let (first, second) = dossier.split_at(cut);
        let mut day = opened();
        assert_eq!(fed(&[first, b"", second]).end(&mut day, &register).expect("taken"), number);
        assert_eq!(day.counts(), whole.counts());
        assert!(day.book_bytes() == whole.book_bytes() && day.table_bytes() == whole.table_bytes());
    }
    assert_eq!(fed(&[b"\\G", b"\r", b"\n"]).end(&mut whole, &register).expect("no rows"), None);
}

/// What refuses the one call refuses the feed, with the same places; and a feed that was refused may go on.
#[test]
fn a_feed_that_is_refused_comes_back() {
    let (dossier, register, mut day) = (driving(), registered(), opened());
    let before = (day.counts(), day.book_bytes().to_vec(), day.table_bytes().to_vec());
    let (first, second) = dossier.split_at(dossier.len() - 1);
    let not_ended = fed(&[first]).end(&mut day, &register).expect_err("its last line has not ended");
    let syntax = Refusal::Syntax { dossier: Dossier::Message, offset: first.len() as u64 };
    assert_eq!((not_ended.refusal, day.message(first, Sender(7), Form::OLD, &register)), (syntax, Err(syntax)));
    let mut feed = not_ended.feed;
    feed.part(second, &register).expect("the rest");
    let nobody = feed.end(&mut day, &Register::new()).expect_err("the register has changed");
    assert_eq!(nobody.to_string(), "refused with 6: the sender is not registered for a row's owner");
    let short = nobody.feed.end(&mut Day::with_room(71, 1), &register).expect_err("no room in the book");
    assert_eq!(short.refusal, Refusal::BookShort);
    assert_eq!((day.counts(), day.book_bytes().to_vec(), day.table_bytes().to_vec()), before);
    let kept = short.feed.into_parts();
    let feed = Feed::resumed(kept.0, kept.1);
    assert_eq!(feed.end(&mut day, &register).expect("taken").map(|number| number.0), Some(1));
}

#[test]
fn a_feed_in_lent_bytes() {
    let (dossier, register, mut day) = (driving(), registered(), opened());
    let mut staging = vec![7; layout::BODY_WIDE];
    let mut feed = Feed::lent(Sender(7), Form::OLD, &mut staging[..layout::BODY_WIDE - 1]);
    feed.part(&dossier, &register).expect("it is fed");
    assert_eq!(Refusal::from(feed.end(&mut day, &register).expect_err("no room for its row")), Refusal::StagingShort);
    assert_eq!(staging, [7; layout::BODY_WIDE]);
    let mut feed = Feed::lent(Sender(7), Form::OLD, &mut staging[..]);
    feed.part(&dossier, &register).expect("it is fed");
    feed.end(&mut day, &register).expect("just enough room");
    assert_eq!(staging[..], day.book_bytes()[2 * layout::PLAN_WIDE + layout::UPDATE_BODY_AT..][..layout::BODY_WIDE]);
    let mut narrow = Feed::with_room(Sender(7), Form::OLD, 1);
    narrow.part(&dossier, &register).expect("it is fed");
    assert!(narrow.end(&mut day, &register).is_ok());
    let none = Box::new(Kept { numbers: [0; layout::FEED], line: [0; layout::LINE] });
    let mut none = Feed::resumed(none, Vec::new());
    assert_eq!(none.part(&dossier, &register), Err(Refusal::Unsound));
    assert_eq!(none.end(&mut day, &register).expect_err("it was not begun").refusal, Refusal::Unsound);
}

#[test]
fn a_line_too_long() {
    let (register, mut day) = (registered(), opened());
    let of = |bytes: usize| format!("\\G{}\r\n", "x".repeat(bytes - 4)).into_bytes();
    let (dossier, line) = (Dossier::Message, 1);
    assert_eq!(day.message(&of(layout::LINE), Sender(7), Form::OLD, &register), Ok(None));
    assert_eq!(
        day.message(&of(layout::LINE + 1), Sender(7), Form::OLD, &register),
        Err(Refusal::LineLong { dossier, line })
    );
    let fed = fed(&[&of(layout::LINE + 1)]).end(&mut day, &register);
    assert_eq!(fed.map_err(Refusal::from), Err(Refusal::LineLong { dossier, line }));
    let dossier = Dossier::Calendar;
    assert_eq!(day.open(&planning(), &of(layout::LINE + 1)), Err(Refusal::LineLong { dossier, line }));
}

/// A message of one cancelled passage in the 8.5 form, which says this of it.
fn cancelled(shown: &str) -> Vec<u8> {
    let labels = UPDATES.replace("ShowFlexibleTrip", "ShowCancelledJourney");
    let row =
        format!("CXX|2016-03-01|A031|7|0|S1|1|END|2016-03-01T09:00:00+01:00|CANCEL|\\0|10:00:00|FIRST|{shown}|true");
    dossier("DATEDPASSTIME", &labels, &[&row])
}

/// The words of the 8.5 form, whole and in parts: what is kept of each, and whether a board shows the passage.
#[test]
fn the_new_form() {
    let register = registered();
    for (word, kept, on_board) in
        [("false", ShowCancelled::False, 1), ("true", ShowCancelled::True, 2), ("message", ShowCancelled::Message, 1)]
    {
        let dossier = cancelled(word);
        let (mut day, mut fed) = (opened(), opened());
        day.message(&dossier, Sender(7), Form::NEW, &register).expect("taken");
        let mut feed = Feed::begin(Sender(7), Form::NEW);
        dossier.chunks(9).for_each(|part| feed.part(part, &register).expect("a begun feed takes any part"));
        feed.end(&mut fed, &register).expect("taken");
        assert!(day.book_bytes() == fed.book_bytes() && day.table_bytes() == fed.table_bytes());
        let row = day.table().expect("sound").row(0).expect("a row");
        assert_eq!((row.show_cancelled(), row.monitored()), (kept, true));
        assert_eq!((row.show_cancelled().to_string().as_str(), row.show_cancelled().code() < 3), (word, true));
        assert_eq!(day.board(&MORNING).expect("a board").len(), on_board);
    }
}

/// Each form takes its own words alone; a form that is not known is refused, and of a feed at its end.
#[test]
fn forms_that_are_not_the_message_s() {
    let (register, mut day) = (registered(), opened());
    let before = (day.counts(), day.book_bytes().to_vec(), day.table_bytes().to_vec());
    let field = |column| Err(Refusal::Field { dossier: Dossier::Message, line: 4, column });
    assert_eq!(day.message(&cancelled("message"), Sender(7), Form::OLD, &register), field(15), "no word of Monitored");
    assert_eq!(day.message(&driving(), Sender(7), Form::NEW, &register), field(15));
    for form in [Form(2), Form(255), Form(u32::MAX)] {
        assert_eq!(day.message(&driving(), Sender(7), form, &register), Err(Refusal::UnknownForm));
        assert_eq!(day.message(&[b' '; 65_537], Sender(7), form, &register), Err(Refusal::UnknownForm), "before 2");
        let mut feed = Feed::begin(Sender(7), form);
        feed.part(&driving(), &register).expect("it is told at the end");
        assert_eq!(Refusal::from(feed.end(&mut day, &register).expect_err("refused")), Refusal::UnknownForm);
    }
    assert_eq!((day.counts(), day.book_bytes().to_vec(), day.table_bytes().to_vec()), before);
}
