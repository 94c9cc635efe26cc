//! Holds the proved library and the other implementations against each other.
//!
//! ```text
//! differ [CALLS [SEED]]             so many calls (1,000,000) of a seed (1; `new` takes one from the clock)
//! differ --replay SEED INDEX        what each side answers to one of them
//! differ --case FOLDER SEED INDEX   keeps that call in a folder, as small as it shows the same
//! differ --case FOLDER              what each side answers to the call kept in a folder
//! differ --gather FOLDER SEED       keeps a small call for each number of each call that the folder has none for
//! ```
//!
//! Before these, `--threads N` sets how many threads work; as many as there are processors unless told. Each call goes
//! to every side with separate copies of the same lent bytes; answers and all lent bytes afterwards are compared whole.
//! A message in parts is one call here, from its beginning to its last end.
//! The exit code is 1 on a difference, and when some number that the layout lists was met too seldom for the run to say
//! much about it, or one that it does not list was met.

use std::io::{self, IsTerminal, Write};
use std::path::{Path, PathBuf};
use std::process::ExitCode;
use std::time::{Duration, Instant, SystemTime, UNIX_EPOCH};

use checks::call::{Job, Outcome};
use checks::case::Case;
use checks::compare::{job_at, Found, Task};
use checks::difference::{difference, see, trying, Seen};
use checks::pages::{made, tell_of_touched_pages};
use checks::shrink::shrink;
use checks::sides::JUDGES;

const USAGE: &str = "usage: differ [--threads N] [CALLS [SEED]]
       differ --replay SEED INDEX
       differ --case FOLDER [SEED INDEX]
       differ --gather FOLDER SEED";

/// A call is cut down by at most so many tries.
const TRIES: usize = 20_000;

fn main() -> ExitCode {
    let words: Vec<String> = std::env::args().skip(1).collect();
    let words: Vec<&str> = words.iter().map(String::as_str).collect();
    tell_of_touched_pages();
    name_call_on_panic();
    let done = match words[..] {
        ["--threads", threads, ref rest @ ..] if number(threads).is_some_and(|threads| threads > 0) => {
            compare(rest, number(threads).unwrap_or(1) as usize)
        }
        ["--replay", seed, index] => with_numbers(seed, index, replay),
        ["--case", folder] => replay_case(Path::new(folder)),
        ["--case", folder, seed, index] => {
            with_numbers(seed, index, |seed, index| keep(Path::new(folder), seed, index))
        }
        ["--gather", folder, seed] => with_numbers(seed, "0", |seed, _| gather(Path::new(folder), seed)),
        ref rest => compare(rest, std::thread::available_parallelism().map_or(1, usize::from)),
    };
    match done {
        Ok(true) => ExitCode::SUCCESS,
        Ok(false) => ExitCode::FAILURE,
        Err(error) => {
            eprintln!("differ: {error}");
            ExitCode::FAILURE
        }
    }
}

fn number(word: &str) -> Option<u64> {
    word.parse().ok()
}

fn with_numbers(one: &str, other: &str, then: impl FnOnce(u64, u64) -> io::Result<bool>) -> io::Result<bool> {
    match (number(one), number(other)) {
        (Some(one), Some(other)) => then(one, other),
        _ => Err(io::Error::other(USAGE)),
    }
}

fn name_call_on_panic() {
    let usual = std::panic::take_hook();
    std::panic::set_hook(Box::new(move |info| {
        // What a side panics with is caught and told of as a difference.
        if !trying() {
            usual(info);
            let (seed, index) = made();
            eprintln!("in the call of: differ --replay {seed} {index}");
        }
    }));
}

/// Makes the calls that the words ask for; true if no difference came up and every listed number was met often enough.
fn compare(words: &[&str], threads: usize) -> io::Result<bool> {
    let (calls, seed) = match *words {
        [] => (Some(1_000_000), Some(1)),
        [calls] => (number(calls), Some(1)),
        [calls, "new"] => (number(calls), Some(seed_of_now())),
        [calls, seed] => (number(calls), number(seed)),
        _ => (None, None),
    };
    let (Some(calls), Some(seed)) = (calls, seed) else { return Err(io::Error::other(USAGE)) };
    let start = Instant::now();
    let task = Task { calls, seed, threads, judges: JUDGES };
    let mut progress = Progress { calls, start, last: start };
    match task.run(|done| progress.tell(done)) {
        Ok(tally) => {
            let seconds = start.elapsed().as_secs_f64();
            println!("{tally}");
            println!("seed {seed}, {threads} threads, {seconds:.1} s, {:.0} calls a second", calls as f64 / seconds);
            println!("{}", judged());
            println!("no difference");
            tally.faults().iter().for_each(|fault| println!("{fault}"));
            Ok(tally.faults().is_empty())
        }
        Err(found) => tell_of(seed, *found),
    }
}

fn judged() -> String {
    let parts = JUDGES.iter().map(|judge| match judge.every {
        1 => format!("{}: every call", judge.name),
        every => format!("{}: one call in {every}", judge.name),
    });
    format!("given to {}", parts.collect::<Vec<_>>().join(", "))
}

/// Another seed each time: it is printed, so that its calls can be made again.
fn seed_of_now() -> u64 {
    SystemTime::now().duration_since(UNIX_EPOCH).map_or(2, |since| since.as_secs())
}

struct Progress {
    calls: u64,
    start: Instant,
    last: Instant,
}

impl Progress {
    /// On a terminal one line that changes; elsewhere a line now and then.
    fn tell(&mut self, done: u64) {
        let terminal = io::stderr().is_terminal();
        let pause = if terminal { Duration::from_millis(500) } else { Duration::from_secs(20) };
        if self.last.elapsed() < pause {
            return;
        }
        self.last = Instant::now();
        let end = if terminal { "\r" } else { "\n" };
        let seconds = self.start.elapsed().as_secs();
        eprint!("differ: {done} of {} calls in {seconds} s{end}", self.calls);
        let _ = io::stderr().flush();
    }
}

/// Tells of a difference, and keeps its call as small as it can be.
fn tell_of(seed: u64, found: Found) -> io::Result<bool> {
    let Found { index, job, words } = found;
    println!("difference: {words}");
    println!("seed {seed}, call {index}: differ --replay {seed} {index}");
    let small = shrink(job, TRIES, |job| difference(job, &see(job, JUDGES)).is_some());
    let folder =
        PathBuf::from(concat!(env!("CARGO_MANIFEST_DIR"), "/../target/differ")).join(format!("{seed}-{index}"));
    Case { job: small.clone(), answer: None }.write(&folder)?;
    println!("cut down, it is kept in {}; there:", folder.display());
    tell(&small, &see(&small, JUDGES));
    Ok(false)
}

/// What each side answered, and what they differ in; true if in nothing.
fn tell(job: &Job, seen: &[Seen]) -> bool {
    println!("{}", job.call.kind().name());
    for (name, outcome) in seen {
        match outcome {
            Ok(outcome) => println!("  {name}: {:?}", outcome.answer),
            Err(panic) => println!("  {name} panicked: {panic}"),
        }
    }
    match difference(job, seen) {
        Some(words) => println!("difference: {words}"),
        None => println!("no difference"),
    }
    difference(job, seen).is_none()
}

fn replay(seed: u64, index: u64) -> io::Result<bool> {
    let job = job_at(seed, index, JUDGES[0]);
    Ok(tell(&job, &see(&job, JUDGES)))
}

fn replay_case(folder: &Path) -> io::Result<bool> {
    let case = Case::read(folder)?;
    let seen = see(&case.job, JUDGES);
    let same = tell(&case.job, &seen);
    let as_kept = match (&case.answer, &seen[0].1) {
        (Some(kept), Ok(outcome)) if *kept != outcome.answer => {
            println!("kept with the answer {kept:?}");
            false
        }
        _ => true,
    };
    Ok(same && as_kept)
}

/// Keeps a call: where sides differ in it, as small as they still do; else as small as the answer's number, value and
/// second value stay.
fn keep(folder: &Path, seed: u64, index: u64) -> io::Result<bool> {
    let job = job_at(seed, index, JUDGES[0]);
    let differ = |job: &Job| difference(job, &see(job, JUDGES)).is_some();
    if differ(&job) {
        let small = shrink(job, TRIES, differ);
        Case { job: small.clone(), answer: None }.write(folder)?;
        return Ok(tell(&small, &see(&small, JUDGES)));
    }
    let answer = (JUDGES[0].perform)(&job).answer;
    keep_small(folder, job, |_, outcome| outcome.answer[..3] == answer[..3])?;
    println!("{}", folder.display());
    Ok(true)
}

/// Cuts a call down on which all sides agree, and keeps it with its answer.
fn keep_small(folder: &Path, job: Job, holds: impl Fn(&Job, &Outcome) -> bool) -> io::Result<()> {
    let small = shrink(job, TRIES, |job| {
        let seen = see(job, JUDGES);
        let agreed = difference(job, &seen).is_none();
        agreed && seen[0].1.as_ref().is_ok_and(|outcome| holds(job, outcome))
    });
    let answer = (JUDGES[0].perform)(&small).answer;
    Case { job: small, answer: Some(answer) }.write(folder)
}

/// A case for each call and number, named by both, where the folder has none yet. A feed is begun in each case of its end.
fn gather(folder: &Path, seed: u64) -> io::Result<bool> {
    for (call, name) in layout::CALLS.into_iter().filter(|(call, _)| *call != layout::Call::FeedBegin) {
        for number in layout::numbers_of(call) {
            let folder = folder.join(format!("{name}-{number}"));
            if folder.exists() {
                continue;
            }
            let Some((job, answer)) = first_with(seed, call, number.into()) else {
                println!("{name}: number {number} was not met");
                continue;
            };
            keep_small(&folder, job, |job, outcome| {
                let other = outcome.answer;
                // An acceptance is to do something still.
                let does = other[0] == answer[0]
                    && (1..6).all(|place| number != 0 || (other[place] > 0) == (answer[place] > 0));
                does && outcome.numbers(job).contains(&(call, number.into()))
            })?;
            println!("{}", folder.display());
        }
    }
    Ok(true)
}

/// The first call of a seed with this number; of acceptances, one that does something.
fn first_with(seed: u64, call: layout::Call, number: u64) -> Option<(Job, [u64; 6])> {
    (0..200_000).map(|index| job_at(seed, index, JUDGES[0])).find_map(|job| {
        let of_feed = call == layout::Call::Feed && job.call.kind() == layout::Call::FeedEnd;
        if job.call.kind() != call && !of_feed {
            return None;
        }
        let outcome = (JUDGES[0].perform)(&job);
        let answer = outcome.answer;
        let taking = matches!(call, layout::Call::Message | layout::Call::FeedEnd);
        let telling = number != 0 || answer[1] + answer[2] > 0 || !taking && answer[5] > 1;
        (outcome.numbers(&job).contains(&(call, number)) && telling).then_some((job, answer))
    })
}
