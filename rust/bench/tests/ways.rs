//! The proved library's ways of working in Rust give what the rival gives, part by part, on generated calls: what the
//! benchmark sets side by side is the same work.

use bench::ways::{applying, boards, opening, reading, soundness, syntax, withdrawing};
use bench::ways::{BODY, BODY_AT, ENTRY, PLAN, ROW};
use checks::call::{perform, Call, Job, Outcome};
use checks::sides::{Rival, Side};
use checks::worlds::passage::padded;
use checks::worlds::random::Random;
use checks::worlds::run::{Run, CALLS_PER_RUN};

#[test]
fn parts_agree_with_the_rival() {
    let mut met = [0; 8];
    for number in 0..400 {
        let mut run = Run::new(5, number);
        for _ in 0..CALLS_PER_RUN {
            let job = run.next_job();
            let outcome = perform::<Rival>(&job);
            met[check(&job, &outcome)] += 1;
            run.learn(job, outcome);
        }
    }
    // Each part was gone through often, soundness and reading with refusals too.
    assert!(met[1..].iter().all(|&count| count > 200), "{met:?}");
}

/// Holds the parts of one call against its outcome; tells which part it was that was tried.
fn check(job: &Job, outcome: &Outcome) -> usize {
    let (used, rows) = (job.lent.used as usize, job.lent.rows as usize);
    let (mut book, mut table) = (job.lent.book.clone(), job.lent.table.clone());
    let refusal = outcome.answer[0];
    let sound = soundness::table_is_sound(&table, rows) && (is_board(job) || soundness::book_is_sound(&book, used));
    match &job.call {
        // Its parts are those of a message, and are tried there.
        call if call.kind() == layout::Call::FeedEnd => 0,
        Call::Open { .. } if refusal == 0 => open(outcome),
        Call::Open { .. } => 0,
        Call::Message { register, .. } if register.len() % 11 != 0 || register.len() > 704 => 0,
        _ if refusal == 1 || !sound => {
            assert!(refusal == 1 && !sound);
            1
        }
        Call::Message { dossier, sender, form, register } => message(dossier, (*sender, *form), register, job, outcome),
        Call::Withdraw { number, .. } if refusal == 0 || refusal == 8 => {
            let count = withdrawing::withdraw(*number, &mut book, &mut table, used, rows);
            assert_eq!(count, (refusal == 0).then_some(outcome.answer[5] as usize));
            assert!(book == outcome.book && table == outcome.table);
            2
        }
        Call::Board { owner, stop, date, second, horizon, places } if refusal == 0 => {
            let (from, mut places) = (boards::moment(*date, *second), places.clone());
            let counts =
                boards::list_rows(&padded(owner), &padded(stop), from, from + horizon, &table, rows, &mut places);
            assert_eq!([counts.0 as u64, counts.1 as u64], outcome.answer[1..3]);
            assert!(places == outcome.places);
            if counts.1 > 0 {
                3
            } else {
                0
            }
        }
        _ => 0,
    }
}

fn is_board(job: &Job) -> bool {
    matches!(job.call, Call::Board { .. })
}

fn message(dossier: &[u8], (sender, form): (u8, u32), register: &[u8], job: &Job, outcome: &Outcome) -> usize {
    let (used, rows, mut staging) = (job.lent.used as usize, job.lent.rows as usize, vec![0; 2427 * BODY]);
    let [refusal, number, ..] = outcome.answer;
    let count = match reading::read_message(dossier, register, sender, form, &mut staging) {
        Ok(count) => count,
        Err(refused) => {
            assert_eq!(refused, outcome.answer[..3]);
            return 4;
        }
    };
    if refusal != 0 || count == 0 {
        assert!(refusal == 7 || refusal == 8 || number == 0);
        return 0;
    }
    let staged = &staging[..count * BODY];
    let entries = &outcome.book[used..outcome.answer[4] as usize];
    assert!(entries.chunks(ENTRY).flat_map(|entry| &entry[BODY_AT..]).eq(staged));
    let (mut book, mut table) = (job.lent.book.clone(), job.lent.table.clone());
    applying::write_entries(&mut book[used..], number as u32, sender, staged);
    table.resize(table.len() + count * ROW, 0);
    assert_eq!(applying::take_all(&mut table, rows, staged), outcome.answer[5] as usize);
    assert!(book == outcome.book && outcome.table[..] == table[..outcome.table.len()]);
    if outcome.answer[5] > rows as u64 {
        5
    } else {
        6
    }
}

/// The plan that was opened: its bodies joined from pass times and validities, and, in another order, sorted and written.
fn open(outcome: &Outcome) -> usize {
    let mut bodies: Vec<&[u8]> =
        outcome.book[..outcome.answer[4] as usize].chunks(PLAN).map(|entry| &entry[1..]).collect();
    join(&bodies);
    bodies.sort_by_key(|body| body.iter().rev().fold(7u32, |sum, &b| sum.wrapping_mul(31) + b as u32));
    let (mut book, mut table) = (outcome.book.clone(), outcome.table.clone());
    book[..bodies.len() * PLAN].fill(0);
    table[..bodies.len() * ROW].fill(0);
    assert!(opening::sort_and_write(&bodies.concat(), &mut book, &mut table));
    assert!(book == outcome.book && table == outcome.table);
    assert!(
        bodies.is_empty()
            || !opening::sort_and_write(&[&bodies[0..1], &bodies].concat().concat(), &mut book, &mut table)
    );
    7
}

/// A service level for each date, so that each pass time has one validity.
fn join(bodies: &[&[u8]]) {
    let level = |body: &[u8]| -> [u8; 10] { [&body[10..14], b"\0level"].concat().try_into().unwrap() };
    let mut validities: Vec<Vec<u8>> =
        bodies.iter().map(|body| [&body[..10], &level(body), &body[10..14]].concat()).collect();
    validities.sort();
    validities.dedup();
    let passes: Vec<u8> = bodies.iter().flat_map(|body| opening::pass_time(body, &level(body))).collect();
    let mut area = vec![7; bodies.len() * BODY + 3];
    assert_eq!(opening::join(&passes, &validities.concat(), &mut area), bodies.len());
    assert!(area[..bodies.len() * BODY] == bodies.concat() && area.ends_with(&[0; 3]));
    area.truncate(bodies.len() * BODY / 2);
    let (room, joined) = (area.len() / BODY, opening::join(&passes, &validities.concat(), &mut area));
    assert_eq!(joined, bodies.len().min(room + 1));
    assert!(area[..room * BODY] == bodies.concat()[..room * BODY]);
}

/// A line around the most bytes, before and behind a fault of form, in a table that is wanted and in one that is not.
#[test]
fn long_lines_agree_with_the_rival() {
    for size in 4_094..4_099 {
        for place in 0..6 {
            for table in ["DATEDPASSTIME", "OTHER"] {
                let mut lines = ["\\G", "\\T", "\\L", "a|b", "", "c"].map(String::from);
                lines[1] = format!("\\T{table}|");
                lines[place] += &"x".repeat(size - 2 - lines[place].len());
                let dossier = (lines.join("\r\n") + "\r\n").into_bytes();
                let answer = Rival::message(&dossier, 1, 0, &[], &mut [], &mut [], 0, 0);
                let refused = reading::read_message(&dossier, &[], 1, 0, &mut []).err().unwrap_or([0; 3]);
                assert_eq!(refused, answer[..3], "a line of {size} bytes at {place}, {table}");
                let number = if size > 4_096 { 15 } else { 4 * (table == "DATEDPASSTIME") as u64 };
                assert_eq!(answer[0], number);
            }
        }
    }
}

/// Bits of form put together at random: what generated dossiers seldom have.
#[test]
fn syntax_agrees_with_the_rival() {
    let bits: [&[u8]; 12] =
        [b"\\", b"G", b"T", b"\\L", b"\\0", b"|", b"\r\n", b"\r", b"plain text", b"\r\n\\T", b"\\p", b"\xff"];
    let mut random = Random::new(6, 0);
    for _ in 0..100_000 {
        let mut dossier = b"\\G|\r\n\\Tx\r\n\\L|\r\n".to_vec();
        dossier.truncate(random.range(dossier.len() - 8, dossier.len() + 8));
        for _ in 0..random.below(7) {
            dossier.extend_from_slice(bits[random.below(bits.len())]);
        }
        let answer = Rival::message(&dossier, 1, 0, &[], &mut [], &mut [], 0, 0);
        assert_eq!(
            syntax::check(&dossier).err(),
            (answer[0] == 3).then_some(answer[1] as usize),
            "{}",
            dossier.escape_ascii()
        );
    }
}
