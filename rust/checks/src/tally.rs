//! How often each call got each number.

use std::collections::BTreeMap;
use std::fmt;

use layout::{numbers_of, refusal, CALLS};

use crate::call::{Call, Job, Outcome};
use crate::coverage::Coverage;

/// Each number that the layout lists for a call is to be met at least once in so many calls.
const CALLS_PER_MEETING: u64 = 50_000;

#[derive(Default)]
pub struct Tally {
    numbers: BTreeMap<(layout::Call, u64), u64>,
    /// Refusals that tell their dossier, by number and dossier.
    dossiers: BTreeMap<(u64, u64), u64>,
    /// Accepted messages without rows.
    rowless: u64,
    /// Messages, whole and in parts, by the form that they state: the old one, that of 8.5, and others.
    forms: [u64; 3],
    /// Messages in parts, each begun, fed and ended in one job, and those of which an end was accepted.
    fed: u64,
    taken: u64,
    /// Boards that showed something, those that showed two or more, and those cut by the places lent.
    shown: u64,
    several: u64,
    cut: u64,
    total: u64,
    coverage: Coverage,
}

impl Tally {
    pub fn count(&mut self, job: &Job, outcome: &Outcome) {
        self.coverage.count(job, outcome);
        let [number, value, second, dossier, ..] = outcome.answer;
        for met in outcome.numbers(job) {
            *self.numbers.entry(met).or_default() += 1;
        }
        self.total += 1;
        if dossier != 0 {
            *self.dossiers.entry((number, dossier)).or_default() += 1;
        }
        match &job.call {
            Call::Message { form, .. } => {
                self.forms[(*form).min(2) as usize] += 1;
                self.rowless += u64::from(number == 0 && value == 0);
            }
            Call::Feed(feeding) => {
                self.forms[feeding.form.min(2) as usize] += 1;
                self.fed += 1;
                self.taken += u64::from(number == 0);
            }
            Call::Board { .. } if number == 0 => {
                self.shown += u64::from(second > 0);
                self.several += u64::from(second > 1);
                self.cut += u64::from(value < second);
            }
            _ => {}
        }
    }

    /// Adds what another has counted.
    pub fn add(&mut self, other: &Tally) {
        for (&key, count) in &other.numbers {
            *self.numbers.entry(key).or_default() += count;
        }
        for (&key, count) in &other.dossiers {
            *self.dossiers.entry(key).or_default() += count;
        }
        self.rowless += other.rowless;
        self.fed += other.fed;
        self.taken += other.taken;
        self.forms = std::array::from_fn(|form| self.forms[form] + other.forms[form]);
        self.shown += other.shown;
        self.several += other.several;
        self.cut += other.cut;
        self.total += other.total;
        self.coverage.add(&other.coverage);
    }

    /// All that was reached, by name.
    pub fn coverage(&self) -> &Coverage {
        &self.coverage
    }

    /// What is wrong with the numbers met: those listed that were met too seldom, and those that are not listed. A short
    /// tally misses none.
    pub fn faults(&self) -> Vec<String> {
        let least = self.total / CALLS_PER_MEETING;
        let mut faults = Vec::new();
        for (call, name) in CALLS {
            for number in numbers_of(call) {
                if self.met(call, number.into()) < least {
                    faults.push(format!("met too seldom: number {number} of {name}"));
                }
            }
        }
        for &(call, number) in self.numbers.keys() {
            if !numbers_of(call).iter().any(|&listed| u64::from(listed) == number) {
                faults.push(format!("not listed: number {number} of {}", call.name()));
            }
        }
        let short = self.coverage.short().into_iter();
        faults.extend(short.map(|(name, met, least)| format!("met {met} times and not {least}: {name}")));
        faults
    }

    fn met(&self, call: layout::Call, number: u64) -> u64 {
        self.numbers.get(&(call, number)).copied().unwrap_or(0)
    }
}

impl fmt::Display for Tally {
    fn fmt(&self, f: &mut fmt::Formatter) -> fmt::Result {
        writeln!(f, "| call | calls | numbers met |")?;
        writeln!(f, "|---|---|---|")?;
        for (call, name) in CALLS {
            let of_call = self.numbers.iter().filter(|((of, _), _)| *of == call);
            let met: Vec<String> = of_call.clone().map(|((_, number), count)| format!("{number}: {count}")).collect();
            let calls: u64 = of_call.map(|(_, count)| count).sum();
            writeln!(f, "| {name} | {calls} | {} |", met.join(", "))?;
        }
        for (&(number, dossier), count) in &self.dossiers {
            let name = refusal(number as u32).map_or("?", |form| form.name);
            writeln!(f, "open, number {number} ({name}), dossier {dossier}: {count}")?;
        }
        writeln!(f, "accepted messages without rows: {}", self.rowless)?;
        writeln!(f, "messages in parts: {}, accepted: {}", self.fed, self.taken)?;
        let [old, new, unknown] = self.forms;
        writeln!(f, "messages in the old form: {old}, in the 8.5 form: {new}, in others: {unknown}")?;
        writeln!(
            f,
            "boards that show something: {}, two or more: {}, cut by their places: {}",
            self.shown, self.several, self.cut
        )?;
        write!(f, "total: {}", self.total)
    }
}

#[cfg(test)]
mod tests {
    use super::*;
    use crate::call::perform;
    use crate::sides::Rival;
    use crate::worlds::run::{Run, CALLS_PER_RUN};

    /// The generator by itself: every number that the layout lists is met, by every call that has it.
    #[test]
    fn every_number_is_met() {
        let mut tally = Tally::default();
        for number in 0..1_000 {
            let mut run = Run::new(1, number);
            for _ in 0..CALLS_PER_RUN {
                let job = run.next_job();
                let outcome = perform::<Rival>(&job);
                assert_eq!(outcome.complaint(&job), None);
                tally.count(&job, &outcome);
                run.learn(job, outcome);
            }
        }
        assert_eq!(tally.faults(), [""; 0], "{tally}");
    }

    #[test]
    fn a_number_that_nobody_knows_is_told_of() {
        let mut tally = Tally::default();
        let mut run = Run::new(1, 0);
        let is_feed = |job: &Job| job.call.kind() == layout::Call::FeedEnd;
        let job = std::iter::repeat_with(|| run.next_job()).find(|job| !is_feed(job)).expect("another call");
        let outcome = Outcome { answer: [99, 0, 0, 7, 0, 0], ..perform::<Rival>(&job) };
        tally.count(&job, &outcome);
        assert!(tally.faults()[0].starts_with("not listed: number 99 of "), "{tally}");
    }
}
