//! Plans to open a day with, and the bytes lent to it.

use std::collections::BTreeSet;

use super::calendar::{day_of_number, number_of_day};
use super::dossier::Line;
use super::passage::*;
use super::random::Random;
use super::state::{spare, State};
use super::world::{Role, World};

/// A validity as a key: of a passage only owner and date are written into a calendar.
fn validity_key(owner: Text, level: Text, date: u32) -> Key {
    Key { owner, date, line: level, journey: 0, fortify: 0, stop: level, order: 0 }
}

/// So many days beside each other, in any order.
fn many_days(count: i64, random: &mut Random) -> Vec<u32> {
    let first = day_of_number(20_000_101) + random.below(32_000) as i64;
    let mut days: Vec<u32> = (first..first + count).map(number_of_day).collect();
    random.shuffle(&mut days);
    days
}

/// Pass times and validities, and how many pairs they join to.
pub struct Plan {
    times: Vec<(Passage, Text)>,
    validities: Vec<(Passage, Text)>,
    pairs: usize,
}

impl Plan {
    pub fn small(world: &World, random: &mut Random) -> Plan {
        let repeats = random.one_in(12);
        let mut plan = Plan { times: Vec::new(), validities: Vec::new(), pairs: 0 };
        let mut seen = BTreeSet::new();
        for _ in 0..if world.busy { random.range(8, 24) } else { random.below(13) } {
            let key = Key { date: 0, ..world.key(random) };
            if seen.insert(key.bytes()) || repeats {
                let passage = world.passage(key, Role::Plan, random);
                plan.times.push((passage, *random.pick(&world.levels)));
            }
        }
        let mut seen = BTreeSet::new();
        for _ in 0..random.range(1, 6) {
            plan.add_validity(world, repeats, &mut seen, random);
        }
        if !plan.times.is_empty() && random.one_in(15) {
            let (passage, level) = plan.times[0].clone();
            for number in many_days(random.range(13, 40) as i64, random) {
                let key = validity_key(passage.key.owner, level, number);
                if seen.insert(key.bytes()) {
                    plan.validities.push((world.passage(key, Role::Plan, random), level));
                }
            }
        }
        plan.pairs = plan.count_pairs();
        plan
    }

    /// Pass times of one level and its dates: about as many pairs as table or book can hold.
    pub fn large(world: &World, dense: bool, random: &mut Random) -> Plan {
        match random.below(4) {
            0 => return Plan::of_days(world, dense, random),
            1 if dense => return Plan::of_times(world, random),
            _ => {}
        }
        let level = world.levels[0];
        let pairs = *random.pick(&[300, 1_500, 2_000, 2_047, 2_048, 2_049, 2_100, 4_401, 4_402]);
        let days = *random.pick(if dense { &[1, 2, 3, 4] } else { &[3, 8, 9, 12] });
        // No more pass times than a dossier holds.
        let most = if dense { 1_350 } else { 550 };
        let mut plan = Plan { times: Vec::new(), validities: Vec::new(), pairs: 0 };
        let mut seen = BTreeSet::new();
        while plan.times.len() * days < pairs && plan.times.len() < most {
            let key = Key { date: 0, owner: world.owners[0], ..world.key(random) };
            if seen.insert(key.bytes()) {
                plan.times.push((world.passage(key, Role::Plan, random), level));
            }
        }
        plan.add_days(world, world.dates[..days].iter().copied(), random);
        plan.pairs = plan.count_pairs();
        plan
    }

    /// A few pass times on as many dates as a calendar holds, in any order.
    fn of_days(world: &World, dense: bool, random: &mut Random) -> Plan {
        let most = if dense { 4_000 } else { 1_800 };
        let days = (*random.pick(&[13, 64, 256, 257, 1_001, 1_024, 2_047, 2_048, 2_049, 4_000])).min(most);
        let mut plan = Plan { times: Vec::new(), validities: Vec::new(), pairs: 0 };
        for order in 0..random.range(1, 3) as u16 {
            let key = Key { date: 0, owner: world.owners[0], order, ..world.key(random) };
            plan.times.push((world.passage(key, Role::Plan, random), world.levels[0]));
        }
        plan.add_days(world, many_days(days, random).into_iter(), random);
        plan.pairs = plan.count_pairs();
        plan
    }

    /// As many pass times as a planning holds, on one date.
    fn of_times(world: &World, random: &mut Random) -> Plan {
        let mut plan = Plan { times: Vec::new(), validities: Vec::new(), pairs: 0 };
        let mut seen = BTreeSet::new();
        for _ in 0..random.range(1_410, 1_480) {
            let key = Key { date: 0, owner: world.owners[0], ..world.key(random) };
            if seen.insert(key.bytes()) {
                let mut passage = world.passage(key, Role::Plan, random);
                passage.shorten();
                plan.times.push((passage, world.levels[0]));
            }
        }
        plan.add_days(world, world.dates[..1].iter().copied(), random);
        plan.pairs = plan.count_pairs();
        plan
    }

    /// A validity of the first owner and level for each date.
    fn add_days(&mut self, world: &World, dates: impl Iterator<Item = u32>, random: &mut Random) {
        for date in dates {
            let key = validity_key(world.owners[0], world.levels[0], date);
            self.validities.push((world.passage(key, Role::Plan, random), world.levels[0]));
        }
    }

    /// Most validities are of an owner and level that some pass time has.
    fn add_validity(&mut self, world: &World, repeats: bool, seen: &mut BTreeSet<[u8; KEY_WIDE]>, random: &mut Random) {
        let (mut owner, mut level) = (*random.pick(&world.owners), *random.pick(&world.levels));
        if !self.times.is_empty() && !random.one_in(6) {
            let (passage, of_passage) = random.pick(&self.times);
            (owner, level) = (passage.key.owner, *of_passage);
        }
        let date = *random.pick(&world.dates);
        let validity = validity_key(owner, level, date);
        if seen.insert(validity.bytes()) || repeats {
            self.validities.push((world.passage(validity, Role::Plan, random), level));
        }
    }

    fn count_pairs(&self) -> usize {
        let same =
            |one: &(Passage, Text), other: &(Passage, Text)| one.0.key.owner == other.0.key.owner && one.1 == other.1;
        self.times.iter().map(|time| self.validities.iter().filter(|validity| same(time, validity)).count()).sum()
    }

    pub fn planning(&self) -> Vec<Line<'_>> {
        self.times.iter().map(|(passage, level)| Line { passage, level }).collect()
    }

    pub fn calendar(&self) -> Vec<Line<'_>> {
        self.validities.iter().map(|(passage, level)| Line { passage, level }).collect()
    }

    /// Lent bytes of the most that is used, or nearly, or more.
    pub fn lent_most(&self, random: &mut Random) -> State {
        let book = BOOK + *random.pick(&[0, 0, 1, UPDATE_WIDE - 1, UPDATE_WIDE, 200]);
        let table = ROWS * ROW + *random.pick(&[0, 0, 1, ROW - 1, ROW, 200]);
        let less = *random.pick(&[0, 0, 0, 0, 1]);
        State::blank(book - less, table - less, random)
    }

    /// Lent bytes: room to go on if the day is kept, else exactly as much as needed, or nearly.
    pub fn lent(&self, keep: bool, random: &mut Random) -> State {
        let (mut book, mut table) = (self.pairs * PLAN_WIDE, self.pairs * ROW);
        if keep {
            let (updates, rows) =
                *random.pick(&[(0, 0), (8, 3), (60, 14), (600, 80), (600, 80), (600, 80), (600, 80), (600, 80)]);
            book += random.below(updates * UPDATE_WIDE + PLAN_WIDE);
            table += random.below(rows * ROW + ROW);
        } else {
            book += spare(PLAN_WIDE, random);
            table += spare(ROW, random);
        }
        match random.below(if keep { 60 } else { 12 }) {
            0 => book = (self.pairs * PLAN_WIDE).saturating_sub(1),
            1 => table = (self.pairs * ROW).saturating_sub(1),
            2 => book = random.below(book + 1),
            3 => table = random.below(table + 1),
            _ => {}
        }
        State::blank(book, table, random)
    }
}
