//! Why the proved library takes longer: parts of calls as the rival does them, the same parts done in the proved library's
//! way by the same compiler (`bench::ways`), and as the proved library does them.
//!
//! A side's part is the time of a call that has it, less that of a call that has all but it.

use bench::ways::{applying, boards, opening, reading, soundness, withdrawing, BODY, PLAN};

use super::*;

/// The areas that the proved library clears before it reads, in bytes: of a long message, and of a long opening; and that for many plan passages.
const STAGED: usize = 160_182;
const OPENED: usize = 425_945 + 131_064;
const JOINED: usize = 290_466;

/// The part in the proved library's way, on a book and a table lent anew.
type Way = Box<dyn FnMut(&mut [u8], &mut [u8])>;

struct Reason {
    name: &'static str,
    with: Job,
    without: Option<Job>,
    way: Way,
}

pub fn print(rows: usize, samples: usize) {
    println!("| part | rival | the proved way in Rust | proved | way / rival | proved / way |");
    println!("|---|---|---|---|---|---|");
    for mut reason in reasons(rows) {
        measure(&mut reason, samples);
    }
}

fn measure(reason: &mut Reason, samples: usize) {
    let mut with = Room::new(&reason.with);
    let mut without = Room::new(reason.without.as_ref().unwrap_or(&reason.with));
    let mut times = [const { Vec::new() }; 5];
    for round in 0..samples + samples / 10 {
        let (mut proved, mut rival) = (with.sample::<Proved>(&reason.with), with.sample::<Rival>(&reason.with));
        if let Some(job) = &reason.without {
            proved -= without.sample::<Proved>(job);
            rival -= without.sample::<Rival>(job);
        }
        let way = with.sample_way(&reason.with, &mut reason.way);
        if round >= samples / 10 {
            for (times, time) in times.iter_mut().zip([rival, way, proved, way / rival, proved / way]) {
                times.push(time);
            }
        }
    }
    let [rival, way, proved, slower, compiled] = &mut times;
    let columns = [spread(rival, 1), spread(way, 1), spread(proved, 1), spread(slower, 2), spread(compiled, 2)];
    println!("| {} | {} |", reason.name, columns.join(" | "));
}

impl Room {
    fn sample_way(&mut self, job: &Job, way: &mut Way) -> f64 {
        self.book.copy_from_slice(&job.lent.book);
        self.table.copy_from_slice(&job.lent.table);
        let start = Instant::now();
        way(&mut self.book, &mut self.table);
        start.elapsed().as_secs_f64() * 1e6
    }
}

fn job(call: Call, lent: &State) -> Job {
    case("", call, lent).job
}

fn reason(
    name: &'static str,
    with: Job,
    without: Option<Job>,
    way: impl FnMut(&mut [u8], &mut [u8]) + 'static,
) -> Reason {
    Reason { name, with, without, way: Box::new(way) }
}

fn reasons(rows: usize) -> Vec<Reason> {
    let day = Day::new(rows);
    let large = day.message_of(usize::MAX, Columns::Wanted);
    let wide = day.message_of(usize::MAX, Columns::All);
    let clear = |area: &mut [u8]| {
        black_box(area).fill(0);
    };
    let (mut staging, mut opened) = (vec![0; STAGED], vec![0; OPENED]);
    vec![
        reason("area of a long message", job(message(&[b'x'; LONG]), &blank()), None, move |_, _| clear(&mut staging)),
        reason("areas of a long opening", job(open_faulty(LONG), &blank()), None, move |_, _| clear(&mut opened)),
        soundness_of(&day),
        reading_of("syntax of 65,536 bytes", &unwanted(&wide)),
        reading_of("reading, 65 columns, fault in the first row", &with_early_fault(&wide)),
        reading_of("reading, 65 columns", &wide.bytes),
        reading_of("reading, wanted columns, fault in the first row", &with_early_fault(&large)),
        reading_of("reading, wanted columns", &large.bytes),
        joined(rows),
        plan_sorted(rows),
        new_passages(&large),
        board_of(&day),
        withdrawal(&day.state.after(message(&large.bytes))),
    ]
}

fn soundness_of(day: &Day) -> Reason {
    let (used, rows) = (day.state.used as usize, day.state.rows as usize);
    reason("soundness of book and table", job(withdraw(u32::MAX), &day.state), None, move |book, table| {
        assert!(soundness::book_is_sound(book, used) && soundness::table_is_sound(table, rows));
    })
}

/// A message that no book is lent to is refused once it is read.
fn unposted(dossier: &[u8]) -> Job {
    job(message(dossier), &State { book: Vec::new(), ..blank() })
}

fn reading_of(name: &'static str, dossier: &[u8]) -> Reason {
    let (dossier, register, mut staging) = (dossier.to_vec(), register(), vec![0; STAGED]);
    reason(name, unposted(&dossier), Some(unposted(&[b'x'; LONG])), move |_, _| {
        let _ = black_box(reading::read_message(&dossier, &register, SENDER, OLD_FORM, &mut staging));
    })
}

/// With a bad byte at the start of the first row: syntax is read and fields are counted, but no other field is decoded.
fn with_early_fault(dossier: &Dossier) -> Vec<u8> {
    let mut bytes = dossier.bytes.clone();
    let labels = (0..bytes.len()).filter(|&place| bytes[place] == b'\n').nth(2).expect("group, table and label lines");
    bytes[labels + 1] = 127;
    bytes
}

/// The plan's bodies as they are joined: by pass time, and then by date.
fn plan_bodies(rows: usize) -> Vec<Vec<u8>> {
    let opened = blank().after(open(rows, Columns::Wanted));
    let mut bodies: Vec<Vec<u8>> = opened.used_book().chunks(PLAN).map(|entry| entry[1..].to_vec()).collect();
    bodies.sort_by(|a, b| (&a[24..41], &a[10..14]).cmp(&(&b[24..41], &b[10..14])));
    bodies
}

/// An opening into a book that is an entry short: it is refused once pass times and validities are joined.
fn unwritten(rows: usize, bodies: usize) -> Job {
    let mut short = blank();
    short.book.truncate(bodies * PLAN - 1);
    job(open(rows, Columns::Wanted), &short)
}

/// Without the part, a calendar of no rows; its few are read in the part too.
fn joined(rows: usize) -> Reason {
    let (bodies, level) = (plan_bodies(rows), padded(LEVEL));
    let passes = bodies.iter().step_by(DATES).flat_map(|body| opening::pass_time(body, &level)).collect::<Vec<u8>>();
    let validity = |body: &Vec<u8>| [&body[..10], &level, &body[10..14]].concat();
    let validities = bodies[..DATES].iter().flat_map(validity).collect::<Vec<u8>>();
    let planning = planning_dossier(rows / DATES, Columns::Wanted);
    let without = job(Call::Open { planning, calendar: b"\\G\r\n".to_vec() }, &blank());
    let mut area = vec![0; JOINED];
    reason("pass times and validities joined", unwritten(rows, bodies.len()), Some(without), move |_, _| {
        assert_eq!(opening::join(&passes, &validities, black_box(&mut area)), bodies.len());
    })
}

/// The plan's bodies sorted and written; without the part, all but that.
fn plan_sorted(rows: usize) -> Reason {
    let bodies = plan_bodies(rows);
    let (without, bodies) = (unwritten(rows, bodies.len()), bodies.concat());
    reason("plan sorted and written", job(open(rows, Columns::Wanted), &blank()), Some(without), move |book, table| {
        assert!(opening::sort_and_write(&bodies, book, table));
    })
}

fn new_passages(dossier: &Dossier) -> Reason {
    let mut staged = vec![0; STAGED];
    reading::read_message(&dossier.bytes, &register(), SENDER, OLD_FORM, &mut staged)
        .expect("the benchmark's own dossier");
    staged.truncate(dossier.rows * BODY);
    let (with, without) = (job(message(&dossier.bytes), &blank()), unposted(&dossier.bytes));
    reason("new passages", with, Some(without), move |book, table| {
        assert_eq!(applying::take_all(table, 0, &staged), staged.len() / BODY);
        applying::write_entries(book, 1, SENDER, &staged);
    })
}

fn board_of(day: &Day) -> Reason {
    let (with, mut places, rows) = (board(BUSY_STOP, 86_400), vec![7; ROWS], day.state.rows as usize);
    let mut without = with.clone();
    if let Call::Board { owner, .. } = &mut without {
        *owner = b"nobody".to_vec();
    }
    let from = boards::moment(FIRST_DATE + 1, 28_800);
    reason("board of a day", job(with, &day.state), Some(job(without, &day.state)), move |_, table| {
        let (owner, stop) = (padded(OWNER), padded(BUSY_STOP));
        black_box(boards::list_rows(&owner, &stop, from, from + 86_400, table, rows, &mut places));
    })
}

fn withdrawal(after: &State) -> Reason {
    let (used, rows) = (after.used as usize, after.rows as usize);
    let newest = after.messages().last().expect("a message was accepted").0;
    let (with, without) = (job(withdraw(newest), after), job(withdraw(u32::MAX), after));
    reason("large withdrawal", with, Some(without), move |book, table| {
        assert!(withdrawing::withdraw(newest, book, table, used, rows).is_some());
    })
}
