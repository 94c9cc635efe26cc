//! Times the proved library against the rival, in one run on the same input.
//!
//! ```text
//! bench [SAMPLES [TABLE]]
//! ```
//!
//! Of its four tables `calls`, `early`, `feeds` and `reasons`, TABLE alone is printed where it is given.
//!
//! Samples of the two sides alternate. Before each one the lent bytes are set anew, outside the
//! measured time. The table printed gives the median and, in brackets, the 10th and the 90th
//! percentile, of either side's time and of the ratio of neighbouring samples.

mod feeds;
mod reasons;

use std::hint::black_box;
use std::time::Instant;

use checks::call::{perform, Call, Job};
use checks::sides::{Proved, Rival, Side};
use checks::worlds::columns::{self, Form, PLANNING};
use checks::worlds::fields;
use checks::worlds::passage::{padded, Key, Passage, Text, BOOK, DOSSIER, ROW, ROWS};
use checks::worlds::random::Random;
use checks::worlds::state::State;
use layout::{NEW_FORM, OLD_FORM};

const OWNER: &[u8] = b"CXX";
const LEVEL: &[u8] = b"2159042";
/// A loop line calls here at every other stop, so half of the rows are of this stop.
const BUSY_STOP: &[u8] = b"40004412";
const SENDER: u8 = 3;
/// Validities of the one service level; each gives every pass time once.
const DATES: usize = 8;
const STOPS_PER_JOURNEY: usize = 8;
const FIRST_DATE: u32 = 20_160_301;
/// A byte more than what the proved library reads into small areas.
const LONG: usize = 8_193;

fn main() {
    let samples = std::env::args().nth(1).and_then(|word| word.parse().ok()).unwrap_or(1_001);
    let table = std::env::args().nth(2);
    let prints = |name: &str| table.as_ref().is_none_or(|table| table == name);
    println!("Microseconds: median (10th to 90th percentile) of {samples} samples a side.");
    if prints("calls") {
        print_head("Calls.");
        each_size(|rows| cases(rows).iter().for_each(|case| measure(rows, case, samples)));
    }
    if prints("early") {
        print_head("Where the proved library's time goes, as far as it shows from outside.");
        each_size(|rows| parts(rows).iter().for_each(|case| measure(rows, case, samples)));
    }
    if prints("feeds") {
        print_head("Messages in parts: the beginning, the parts and the end together.");
        each_size(|rows| feeds::print(rows, samples));
    }
    if prints("reasons") {
        println!("\nWhy: parts of calls in the proved library's way of working, by the rival's compiler.\n");
        reasons::print(ROWS, samples);
    }
}

/// Tables of few rows and of as many as there can be.
fn each_size(print: impl FnMut(usize)) {
    [256, ROWS].into_iter().for_each(print);
}

fn print_head(about: &str) {
    println!("\n{about}\n");
    println!("| rows | call | answer | proved | rival | proved / rival |");
    println!("|---|---|---|---|---|---|");
}

struct Case {
    name: String,
    job: Job,
}

fn case(name: impl Into<String>, call: Call, lent: &State) -> Case {
    Case { name: name.into(), job: Job { call, lent: lent.clone(), keep: false, shift: 0 } }
}

// Measuring

fn measure(rows: usize, case: &Case, samples: usize) {
    let answer = agreed_answer(case);
    let mut room = Room::new(&case.job);
    let times = by_turns(samples, || (room.sample::<Proved>(&case.job), room.sample::<Rival>(&case.job)));
    print_line(rows, &case.name, &answer, times);
}

/// Times of the proved library, of the rival, and the ratio of neighbouring ones.
type Times = [Vec<f64>; 3];

fn by_turns(samples: usize, mut sample: impl FnMut() -> (f64, f64)) -> Times {
    let mut times = [const { Vec::new() }; 3];
    for round in 0..samples + samples / 10 {
        let (proved, rival) = sample();
        // The first tenth only warms up.
        if round >= samples / 10 {
            for (times, time) in times.iter_mut().zip([proved, rival, proved / rival]) {
                times.push(time);
            }
        }
    }
    times
}

fn print_line(rows: usize, name: &str, answer: &str, [mut proved, mut rival, mut ratio]: Times) {
    let columns = [spread(&mut proved, 1), spread(&mut rival, 1), spread(&mut ratio, 2)];
    println!("| {rows} | {name} | {answer} | {} |", columns.join(" | "));
}

/// What is timed must be the same work: both sides' outcomes are compared first.
fn agreed_answer(case: &Case) -> String {
    let (proved, rival) = (perform::<Proved>(&case.job), perform::<Rival>(&case.job));
    assert!(proved == rival, "{}: the sides differ", case.name);
    match case.job.call {
        Call::Board { .. } => format!("{}, {} shown", proved.answer[0], proved.answer[2]),
        _ => proved.answer[0].to_string(),
    }
}

fn spread(numbers: &mut [f64], digits: usize) -> String {
    numbers.sort_by(f64::total_cmp);
    let at = |share: usize| numbers[(numbers.len() - 1) * share / 100];
    format!("{:.digits$} ({:.digits$} to {:.digits$})", at(50), at(10), at(90))
}

/// One set of lent bytes for both sides, so that addresses do not differ either.
struct Room {
    book: Vec<u8>,
    table: Vec<u8>,
    places: Vec<u32>,
}

impl Room {
    fn new(job: &Job) -> Room {
        let places = match &job.call {
            Call::Board { places, .. } => places.clone(),
            _ => Vec::new(),
        };
        Room { book: job.lent.book.clone(), table: job.lent.table.clone(), places }
    }

    /// Sets the lent bytes anew, then times one call, in microseconds.
    fn sample<S: Side>(&mut self, job: &Job) -> f64 {
        self.book.copy_from_slice(&job.lent.book);
        self.table.copy_from_slice(&job.lent.table);
        let start = Instant::now();
        black_box(self.call::<S>(black_box(job)));
        start.elapsed().as_secs_f64() * 1e6
    }

    fn call<S: Side>(&mut self, job: &Job) -> [u64; 6] {
        let State { used, rows, .. } = job.lent;
        let (book, table) = (&mut self.book, &mut self.table);
        match &job.call {
            Call::Open { planning, calendar } => S::open(planning, calendar, book, table, used, rows),
            Call::Message { dossier, sender, form, register } => {
                S::message(dossier, *sender, *form, register, book, table, used, rows)
            }
            Call::Withdraw { number, sender } => S::withdraw(*number, *sender, book, table, used, rows),
            call => {
                let Call::Board { owner, stop, date, second, horizon, .. } = call else {
                    panic!("messages in parts have a table of their own");
                };
                let [number, value, in_all] =
                    S::board(owner, stop, *date, *second, *horizon, table, rows, &mut self.places);
                [number, value, in_all, 0, 0, 0]
            }
        }
    }
}

// Cases

fn cases(rows: usize) -> Vec<Case> {
    let day = Day::new(rows);
    let large = day.message_of(usize::MAX, Columns::Wanted);
    let wide = day.message_of(usize::MAX, Columns::All);
    // As many rows as the longer words of the new form leave room for, and the same rows in the old form.
    let newer = day.message_in(NEW_FORM, usize::MAX, Columns::Wanted);
    let older = day.message_of(newer.rows, Columns::Wanted);
    let after_large = day.state.after(message(&large.bytes));
    let after_small = day.state.after(message(&day.message_of(1, Columns::Wanted).bytes));
    let newest = after_large.messages().last().expect("a message was accepted").0;
    vec![
        case("open, 26 columns", open(rows, Columns::All), &blank()),
        case("open, wanted columns", open(rows, Columns::Wanted), &blank()),
        case(format!("message, 65 columns, {} rows", wide.rows), message(&wide.bytes), &day.state),
        case(format!("message, wanted columns, {} rows", large.rows), message(&large.bytes), &day.state),
        case(format!("message, wanted columns, {} rows", older.rows), message(&older.bytes), &day.state),
        case(
            format!("message, wanted columns, {} rows, 8.5 form", newer.rows),
            message_call(NEW_FORM, &newer.bytes),
            &day.state,
        ),
        case("message, 65 columns, 1 row", message(&day.message_of(1, Columns::All).bytes), &day.state),
        case("message, wanted columns, 1 row", message(&day.message_of(1, Columns::Wanted).bytes), &day.state),
        case("message, 65 columns, fault in the last row", message(&wide.with_late_fault()), &day.state),
        case("message, wanted columns, fault in the last row", message(&large.with_late_fault()), &day.state),
        case(format!("withdraw, {} rows", large.rows), withdraw(newest), &after_large),
        case("withdraw, 1 row", withdraw(newest), &after_small),
        case("board, busy stop, a day", board(BUSY_STOP, 86_400), &day.state),
        case("board, busy stop, an hour", board(BUSY_STOP, 3_600), &day.state),
        case("board, quiet stop, an hour", board(&stop_code(1), 3_600), &day.state),
    ]
}

/// The same calls with a part of the work left out.
fn parts(rows: usize) -> Vec<Case> {
    let day = Day::new(rows);
    let large = day.message_of(usize::MAX, Columns::Wanted);
    let wide = day.message_of(usize::MAX, Columns::All);
    let refused = |dossier: &Dossier| {
        let dossier = dossier.bytes.clone();
        Call::Message { dossier, sender: SENDER, form: OLD_FORM, register: Vec::new() }
    };
    let unjoined = Call::Open { planning: planning_dossier(rows / DATES, Columns::All), calendar: b"\\G\r\n".to_vec() };
    vec![
        case("open, empty dossiers: small areas cleared", open_faulty(0), &blank()),
        case("open, long dossiers that fault at once: large areas cleared", open_faulty(LONG), &blank()),
        case("open, 26 columns, no validities: reading", unjoined, &blank()),
        case("message, empty dossier, book and table: small area cleared", message(b""), &blank()),
        case(
            "message, long dossier that faults at once, empty book and table: large area cleared",
            message(&[b'x'; LONG]),
            &blank(),
        ),
        case("message without rows: soundness", message(b"\\G\r\n"), &day.state),
        case("message, wanted columns, no owner registered: soundness, reading", refused(&large), &day.state),
        case("message, 65 columns, no owner registered: soundness, reading", refused(&wide), &day.state),
        case("message, 65 columns, no owner registered, empty book and table: reading", refused(&wide), &blank()),
        case("unwanted table, 65,536 bytes, empty book and table: syntax", message(&unwanted(&wide)), &blank()),
        case("message, wanted columns, empty book and table: reading, applying", message(&large.bytes), &blank()),
        case("withdraw, no such message: soundness", withdraw(u32::MAX), &day.state),
        case("board, unknown stop, horizon 0: soundness, scan", board(b"nowhere", 0), &day.state),
    ]
}

/// Nothing opened yet, all sizes at their most.
fn blank() -> State {
    State::blank(BOOK, ROWS * ROW, &mut Random::new(1, 0))
}

fn open(rows: usize, columns: Columns) -> Call {
    let calendar = calendar_dossier();
    Call::Open { planning: planning_dossier(rows / DATES, columns), calendar }
}

/// A planning of so many bytes that is none: nothing is read of it.
fn open_faulty(size: usize) -> Call {
    Call::Open { planning: vec![b'x'; size], calendar: Vec::new() }
}

/// A message in the old form.
fn message(dossier: &[u8]) -> Call {
    message_call(OLD_FORM, dossier)
}

fn message_call(form: u32, dossier: &[u8]) -> Call {
    Call::Message { dossier: dossier.to_vec(), sender: SENDER, form, register: register() }
}

fn register() -> Vec<u8> {
    [&[SENDER][..], &padded(OWNER)].concat()
}

fn withdraw(number: u32) -> Call {
    Call::Withdraw { number, sender: SENDER }
}

fn board(stop: &[u8], horizon: u32) -> Call {
    let (owner, stop) = (OWNER.to_vec(), stop.to_vec());
    Call::Board { owner, stop, date: FIRST_DATE + 1, second: 28_800, horizon, places: vec![7; ROWS] }
}

/// The accepted state after a call; both sides were compared elsewhere, so either may make it.
trait After {
    fn after(&self, call: Call) -> State;
}

impl After for State {
    fn after(&self, call: Call) -> State {
        let outcome = perform::<Rival>(&Job { call, lent: self.clone(), keep: true, shift: 0 });
        let [number, _, _, _, used, rows] = outcome.answer;
        assert_eq!(number, 0, "the benchmark's own state was refused: {:?}", outcome.answer);
        State { book: outcome.book, table: outcome.table, used, rows }
    }
}

// Days and dossiers

/// A day in operation: a plan of so many rows, and updates to half of them.
struct Day {
    state: State,
    passages: Vec<Passage>,
}

impl Day {
    fn new(rows: usize) -> Day {
        let passages = day_passages(rows);
        let mut day = Day { state: blank().after(open(rows, Columns::Wanted)), passages };
        for quarter in 0..4 {
            let dossier = day.message_from(OLD_FORM, quarter * rows / 8, rows / 8, Columns::Wanted);
            day.state = day.state.after(message(&dossier.bytes));
        }
        day
    }

    /// A message in the old form of as many rows as asked, or as the most bytes of a dossier hold.
    fn message_of(&self, most: usize, columns: Columns) -> Dossier {
        self.message_in(OLD_FORM, most, columns)
    }

    fn message_in(&self, form: u32, most: usize, columns: Columns) -> Dossier {
        self.message_from(form, self.passages.len() / 3, most, columns)
    }

    fn message_from(&self, form: u32, start: usize, most: usize, columns: Columns) -> Dossier {
        let mut dossier = Dossier::new(columns::message(form), columns);
        let mut random = Random::new(2, start as u64);
        for step in 0..most {
            // Steps of a large odd number: neighbouring rows are of passages far apart.
            let place = (start + step * 37) % self.passages.len();
            let mut passage = self.passages[place].clone();
            passage.status = *random.pick(&[0, 3, 3, 4, 5]);
            passage.departure += random.below(300) as u32;
            if !dossier.add(&passage) {
                break;
            }
        }
        dossier
    }
}

/// Every passage that the plan gives, by date and pass time.
fn day_passages(rows: usize) -> Vec<Passage> {
    let times = pass_times(rows / DATES);
    (0..DATES as u32)
        .flat_map(|day| {
            times
                .iter()
                .map(move |time| Passage { key: Key { date: FIRST_DATE + day, ..time.key.clone() }, ..time.clone() })
        })
        .collect()
}

/// Journeys over the whole operating day, each with eight stops.
fn pass_times(count: usize) -> Vec<Passage> {
    let journeys = count / STOPS_PER_JOURNEY;
    (0..count)
        .map(|index| {
            let (journey, order) = (index / STOPS_PER_JOURNEY, index % STOPS_PER_JOURNEY);
            let departure = 21_600 + journey * 72_000 / journeys + order * 180;
            pass_time(journey as u32, order, departure as u32)
        })
        .collect()
}

fn pass_time(journey: u32, order: usize, departure: u32) -> Passage {
    let stop = if order.is_multiple_of(2) { padded(BUSY_STOP) } else { padded(&stop_code(order)) };
    Passage {
        key: Key {
            owner: padded(OWNER),
            date: 0,
            line: padded(if journey.is_multiple_of(2) { b"A077" } else { b"A031" }),
            journey: journey + 1,
            fortify: 0,
            stop,
            order: order as u16 + 1,
        },
        destination: padded(b"A07726982"),
        stamp: 1_456_841_730,
        status: 0,
        arrival: departure - 20,
        departure,
        stop_type: [0, 1, 1, 1, 1, 1, 1, 2][order],
        show_cancelled: 1,
        flexible: 1,
        monitored: 1,
    }
}

fn stop_code(order: usize) -> Vec<u8> {
    format!("4000440{order}").into_bytes()
}

#[derive(Clone, Copy, PartialEq, Eq)]
enum Columns {
    Wanted,
    /// The whole layout of 000.
    All,
}

/// A dossier of one wanted table that is filled up to the most bytes.
struct Dossier {
    form: &'static Form,
    names: Vec<&'static str>,
    bytes: Vec<u8>,
    rows: usize,
}

impl Dossier {
    fn new(form: &'static Form, columns: Columns) -> Dossier {
        let names: Vec<&str> = match columns {
            Columns::Wanted => form.wanted.iter().map(|wanted| wanted.name).collect(),
            Columns::All => form.full.to_vec(),
        };
        let group = "\\GKV8turbo|KV8turbo|openOV||||UTF-8|0.1|2016-03-01T00:12:05+01:00|\u{feff}";
        let title = format!("\\T{0}|{0}|start object", form.name);
        let bytes = format!("{group}\r\n{title}\r\n\\L{}\r\n", names.join("|")).into_bytes();
        Dossier { form, names, bytes, rows: 0 }
    }

    /// Adds a row unless the dossier would be too long.
    fn add(&mut self, passage: &Passage) -> bool {
        let fields: Vec<Vec<u8>> = self.names.iter().map(|name| field(self.form, name, passage)).collect();
        let line = fields.join(&b'|');
        let fits = self.bytes.len() + line.len() + 2 <= DOSSIER;
        if fits {
            self.bytes.extend_from_slice(&line);
            self.bytes.extend_from_slice(b"\r\n");
            self.rows += 1;
        }
        fits
    }

    /// The same dossier with a bad number in its last row.
    fn with_late_fault(&self) -> Vec<u8> {
        let mut bytes = self.bytes.clone();
        let last_row = bytes[..bytes.len() - 1].iter().rposition(|&byte| byte == b'\n').unwrap_or(0);
        let bars: Vec<usize> = (last_row..bytes.len()).filter(|&place| bytes[place] == b'|').collect();
        bytes[bars[2] + 1] = b'x';
        bytes
    }
}

/// The dossier's table under a name that nobody wants: only its syntax is read.
fn unwanted(dossier: &Dossier) -> Vec<u8> {
    let mut bytes = dossier.bytes.clone();
    let title = bytes.windows(2).position(|pair| pair == b"\\T").expect("one table");
    bytes[title + 2] = b'X';
    bytes
}

fn planning_dossier(times: usize, columns: Columns) -> Vec<u8> {
    let mut dossier = Dossier::new(&PLANNING, columns);
    for passage in pass_times(times) {
        assert!(dossier.add(&passage), "the planning is too long");
    }
    dossier.bytes
}

fn calendar_dossier() -> Vec<u8> {
    let mut text = String::from("\\Gcalendar\r\n\\TLOCALSERVICEGROUPVALIDITY\r\n");
    text.push_str("\\LDataOwnerCode|LocalServiceLevelCode|OperationDate\r\n");
    for day in 0..DATES {
        text.push_str(&format!("CXX|2159042|2016-03-{:02}\r\n", day + 1));
    }
    text.into_bytes()
}

/// A row's field: the passage's where the column is wanted, else what 000's samples have.
fn field(form: &Form, name: &str, passage: &Passage) -> Vec<u8> {
    let key = &passage.key;
    let words = std::ptr::eq(form, &columns::NEW_MESSAGE);
    let flag = |content: u8| if words { fields::word(&fields::SHOWN, content) } else { vec![b'0' + content] };
    let text = |text: &Text| fields::text(text);
    let number = |value: u32| value.to_string().into_bytes();
    match name {
        "DataOwnerCode" => text(&key.owner),
        "OperationDate" => fields::date(key.date),
        "LinePlanningNumber" => text(&key.line),
        "VehicleJourneyNumber" => number(key.journey),
        "FortifyOrderNumber" => number(key.fortify.into()),
        "UserStopCode" => text(&key.stop),
        "UserStopOrderNumber" => number(key.order.into()),
        "DestinationCode" => text(&passage.destination),
        "LocalServiceLevelCode" => LEVEL.to_vec(),
        "LastUpdateTimeStamp" => b"2016-03-01T15:15:30+01:00".to_vec(),
        "TripStopStatus" => fields::word(&fields::STATUSES, passage.status),
        "ExpectedArrivalTime" | "TargetArrivalTime" => fields::time(passage.arrival),
        "ExpectedDepartureTime" | "TargetDepartureTime" => fields::time(passage.departure),
        "JourneyStopType" => fields::word(&fields::STOP_TYPES, passage.stop_type),
        "ShowCancelledTrip" | "ShowCancelledJourney" => flag(passage.show_cancelled),
        "ShowFlexibleTrip" => fields::word(&fields::FLEXIBLES, passage.flexible - 1),
        "Monitored" => flag(passage.monitored),
        _ => sample_field(name).as_bytes().to_vec(),
    }
}

fn sample_field(name: &str) -> &'static str {
    match name {
        "JourneyPatternCode" => "156814",
        "SideCode" => "-",
        "WheelChairAccessible" => "ACCESSIBLE",
        "TimingPointDataOwnerCode" => "ALGEMEEN",
        "TimingPointCode" | "DetectedUserStopCode" | "AimedQuayRef" | "ExpectedQuayRef" => "60002001",
        "RecordedArrivalTime" | "RecordedDepartureTime" => "24:11:40",
        "VejoDepartureTime" | "VejoArrivalTime" => "23:58:00",
        "DistanceSinceDetectedUserStop" => "470",
        "VehicleNumber" | "LineDestIcon" => "4465",
        "BlockCode" => "1800126",
        "VejoJourneyNumber" => "122",
        "VehicleJourneyType" => "PUJO",
        "JourneyModificationType" => "NONE",
        "VejoTripStatusType" => "DRIVING",
        "LineDestColor" | "LineDestTextColor" => "ffffff",
        "LineDirection" | "IsTimingStop" | "NumberOfCoaches" | "GetIn" | "GetOut" => "1",
        "LineVeTagNumber" | "ProductFormulaType" => "34",
        "ExtraJourney" | "CancelledJourney" | "MonitoringError" | "ExtraCall" => "0",
        _ => r"\0",
    }
}
