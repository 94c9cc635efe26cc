//! Many generated calls, given to every judge on several threads. What comes out depends on the seed alone: calls belong
//! to runs, a run is made by one thread, and of several differences the first by its index counts.

use std::sync::atomic::{AtomicU64, Ordering};
use std::sync::Mutex;
use std::thread;
use std::time::Duration;

use crate::call::Job;
use crate::difference::agreed;
use crate::pages::making;
use crate::sides::Judge;
use crate::tally::Tally;
use crate::worlds::run::{Run, CALLS_PER_RUN};

/// A call's areas stand on the stack: an opening has a megabyte of them.
const STACK: usize = 16 << 20;

/// What is to be compared.
pub struct Task<'a> {
    pub calls: u64,
    pub seed: u64,
    pub threads: usize,
    pub judges: &'a [Judge],
}

/// A call of which something is wrong.
pub struct Found {
    pub index: u64,
    pub job: Job,
    pub words: String,
}

struct Shared {
    next_run: AtomicU64,
    /// The index of the first difference so far.
    first: AtomicU64,
    done: AtomicU64,
    found: Mutex<Option<Found>>,
    tally: Mutex<Tally>,
}

impl Task<'_> {
    /// Makes the calls; now and then `progress` is told how many are done. The first difference, or the tally of all.
    pub fn run(&self, mut progress: impl FnMut(u64)) -> Result<Tally, Box<Found>> {
        let shared = Shared {
            next_run: AtomicU64::new(0),
            first: AtomicU64::new(u64::MAX),
            done: AtomicU64::new(0),
            found: Mutex::new(None),
            tally: Mutex::default(),
        };
        thread::scope(|scope| {
            let worker = || thread::Builder::new().stack_size(STACK).spawn_scoped(scope, || self.work(&shared));
            let workers: Vec<_> = (0..self.threads).map(|_| worker().expect("a thread")).collect();
            while workers.iter().any(|worker| !worker.is_finished()) {
                thread::sleep(Duration::from_millis(20));
                progress(shared.done.load(Ordering::Relaxed));
            }
        });
        match shared.found.into_inner().expect("no thread panicked") {
            Some(found) => Err(Box::new(found)),
            None => Ok(shared.tally.into_inner().expect("no thread panicked")),
        }
    }

    /// Takes one run after the other, none behind the first difference.
    fn work(&self, shared: &Shared) {
        let mut tally = Tally::default();
        loop {
            let run = shared.next_run.fetch_add(1, Ordering::Relaxed);
            let from = run * CALLS_PER_RUN;
            if from >= self.calls || from > shared.first.load(Ordering::Relaxed) {
                break;
            }
            if let Some(found) = self.make_run(run, &mut tally, &shared.done) {
                shared.first.fetch_min(found.index, Ordering::Relaxed);
                let mut first = shared.found.lock().expect("no thread panicked");
                if first.as_ref().is_none_or(|first| found.index < first.index) {
                    *first = Some(found);
                }
            }
        }
        shared.tally.lock().expect("no thread panicked").add(&tally);
    }

    fn make_run(&self, number: u64, tally: &mut Tally, done: &AtomicU64) -> Option<Found> {
        let from = number * CALLS_PER_RUN;
        let mut run = Run::new(self.seed, number);
        for index in from..self.calls.min(from + CALLS_PER_RUN) {
            making(self.seed, index);
            let job = run.next_job();
            let judges: Vec<Judge> = self.judges.iter().filter(|judge| index % judge.every == 0).copied().collect();
            match agreed(&job, &judges) {
                Ok(outcome) => {
                    tally.count(&job, &outcome);
                    run.learn(job, outcome);
                }
                Err(words) => return Some(Found { index, job, words }),
            }
            done.fetch_add(1, Ordering::Relaxed);
        }
        None
    }
}

/// The call with this index of this seed, as the first judge leads to it.
pub fn job_at(seed: u64, index: u64, leading: Judge) -> Job {
    let mut run = Run::new(seed, index / CALLS_PER_RUN);
    for before in 0..index % CALLS_PER_RUN {
        making(seed, index - index % CALLS_PER_RUN + before);
        let job = run.next_job();
        let outcome = (leading.perform)(&job);
        run.learn(job, outcome);
    }
    making(seed, index);
    run.next_job()
}
