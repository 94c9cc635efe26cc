//! Messages in parts: where they were cut, what was done to them, and every answer of their ends by what caused it.

use layout::{BODY_WIDE, UPDATE_WIDE};

use super::Coverage;
use crate::call::{Job, Outcome};
use crate::feeding::{Feeding, Seen, Step};

/// What a feed has come to before a step.
#[derive(Default)]
struct Course {
    begun: bool,
    parts: Vec<usize>,
    dossier: Vec<u8>,
    /// The least that was lent of the staging area, to parts that brought a line's end.
    least: Option<usize>,
    tampered: bool,
    refused: bool,
    accepted: bool,
    /// What parts wrote into the staging area.
    staged: bool,
}

impl Coverage {
    pub(super) fn fed(&mut self, job: &Job, feeding: &Feeding, outcome: &Outcome) {
        if feeding.damaged() {
            self.damaged(outcome);
            return;
        }
        let mut course = Course::default();
        for (step, seen) in feeding.steps.iter().zip(&outcome.steps) {
            match step {
                Step::Begin => {
                    self.meet_where(course.begun, "feed: begun anew");
                    course = Course { begun: true, ..Course::default() };
                }
                Step::Part { bytes, register, staging } => {
                    self.meet_where(seen.answer[0] == 1, "feed: a part of no begun feed");
                    self.meet_where(course.accepted, "feed: a part behind an accepted end");
                    self.meet_where(
                        !register.len().is_multiple_of(11),
                        "feed: a part with a register of another length",
                    );
                    course.parts.push(bytes.len());
                    course.dossier.extend(bytes);
                    course.staged |= !seen.written.is_empty();
                    if bytes.contains(&b'\n') {
                        course.least = Some(course.least.map_or(*staging, |least| least.min(*staging)));
                    }
                }
                Step::End { register, staging, .. } => {
                    self.ended(job, feeding, seen, register, (*staging).min(feeding.staging.len()), &course);
                    self.meet_where(seen.answer[0] == 0 && course.refused, "end: accepted behind a refused one");
                    course.refused = seen.answer[0] != 0;
                    course.accepted |= seen.answer[0] == 0;
                    course.begun &= seen.answer[0] != 0;
                }
                Step::Tamper { .. } => course.tampered = true,
                Step::Clear => course.begun = false,
                Step::Damage { .. } => {}
            }
        }
        self.cuts(&course);
        // What was taken once in parts counts as any message.
        let taken =
            feeding.numbers(&outcome.steps).into_iter().filter(|met| *met == (layout::Call::FeedEnd, 0)).count();
        if taken == 1 && outcome.answer[1] > 0 {
            self.taken(job, outcome);
        }
    }

    /// Numbers or line were changed: whatever comes is right, if it changes nothing that it may not.
    fn damaged(&mut self, outcome: &Outcome) {
        self.meet("feed: numbers or line changed");
        let last = |number| outcome.steps.iter().any(|seen| seen.answer[0] == number);
        self.meet_where(last(1), "feed: numbers or line changed, 1");
        self.meet_where(!last(1), "feed: numbers or line changed, not seen");
    }

    fn ended(&mut self, job: &Job, feeding: &Feeding, seen: &Seen, register: &[u8], staging: usize, course: &Course) {
        self.stated("end", feeding.form, &course.dossier, [seen.answer[0], seen.answer[1]]);
        let rows_used = (seen.answer[4].saturating_sub(job.lent.used)) as usize / UPDATE_WIDE;
        let wrong_register = !register.len().is_multiple_of(11) || register.len() > 704;
        match seen.answer {
            [0, 0, ..] => {
                self.meet("end: accepted without rows");
                self.meet_where(staging < BODY_WIDE, "end: accepted without rows, no room for one");
            }
            [0, ..] => {
                self.meet("end: accepted with rows");
                self.meet_where(course.tampered, "end: accepted, staged rows changed");
                self.meet_where(staging == rows_used * BODY_WIDE, "end: the staging area to its last byte");
                self.meet_where(course.parts.len() > 1, "end: accepted with rows, of several parts");
                self.meet_where(rows_used > 100, "end: over 100 rows");
            }
            [1, ..] => self.meet(match () {
                _ if course.accepted => "end: 1 behind an accepted one",
                _ if !course.begun => "end: 1 by the numbers",
                _ if wrong_register => "end: 1 by the register",
                _ if course.tampered => "end: 1, staged rows changed",
                _ => "end: 1 by book or table",
            }),
            [6, 0, ..] => {
                self.meet("end: 6 with line 0");
                self.meet_where(course.tampered, "end: 6 with line 0, staged rows changed");
            }
            [6, ..] => {
                self.meet("end: 6 with a line");
                self.meet_where(feeding.sender == 0, "end: 6 with a line, the desk");
            }
            [14, ..] => {
                self.meet("end: 14");
                let shorter = course.least.is_some_and(|least| least < staging);
                self.meet_where(shorter, "end: 14, the area was shorter before");
                self.meet_where(staging % BODY_WIDE == BODY_WIDE - 1, "end: 14, a byte less than whole rows");
            }
            [18, ..] => self.meet_where(course.staged, "18: end, rows staged"),
            [number, ..] => self.meet(format!("end: {number}")),
        }
        let bad = matches!(seen.answer[0], 2..=6 | 15);
        self.meet_where(bad && course.staged, "end: refused for the dossier, rows staged before the fault");
    }

    /// Where the dossier was cut.
    fn cuts(&mut self, course: &Course) {
        let Course { parts, dossier, .. } = course;
        self.meet_where(parts.is_empty() && course.begun, "feed: no part at all");
        self.meet_where(parts.len() == 1, "feed: one part");
        self.meet_where(parts.len() > 20, "feed: over 20 parts");
        self.meet_where(parts.contains(&0), "feed: an empty part");
        self.meet_where(dossier.len() > 65_536, "feed: over 65,536 bytes");
        self.meet_where(dossier.len() == 65_536, "feed: 65,536 bytes");
        let mut at = 0;
        let (mut in_escape, mut in_line_end, mut in_line) = (false, false, false);
        for part in parts.iter().take(parts.len().saturating_sub(1)) {
            at += part;
            if at > 0 && at < dossier.len() {
                in_escape |= dossier[at - 1] == b'\\';
                in_line_end |= dossier[at - 1] == b'\r' && dossier[at] == b'\n';
                in_line |= dossier[at - 1] != b'\n';
            }
        }
        self.meet_where(in_escape, "feed: cut behind a backslash");
        self.meet_where(in_line_end, "feed: cut between CR and LF");
        self.meet_where(in_line, "feed: cut within a line");
    }
}
