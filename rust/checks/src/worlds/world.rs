//! The few owners, lines, stops and so on of one run: few, so that keys meet again and again.

use super::calendar::{day_of_number, number_of_day};
use super::passage::*;
use super::random::Random;

pub struct World {
    pub owners: Vec<Text>,
    pub lines: Vec<Text>,
    pub stops: Vec<Text>,
    pub destinations: Vec<Text>,
    pub levels: Vec<Text>,
    pub dates: Vec<u32>,
    pub journeys: Vec<u32>,
    pub fortifies: Vec<u8>,
    pub orders: Vec<u16>,
    pub times: Vec<u32>,
    pub senders: Vec<u8>,
    /// Passages that a board mostly shows, at few stops.
    pub busy: bool,
}

/// What a passage is made for: it decides on the ranges of its fields.
#[derive(Clone, Copy, PartialEq, Eq)]
pub enum Role {
    Plan,
    Update,
    Row { heard: bool },
}

impl World {
    /// `size` is about how many of each there are.
    pub fn new(size: usize, random: &mut Random) -> World {
        World {
            owners: texts(size.min(4), &[b"CXX", b"CX", b"GVB", b"ALGEMEEN", b"~~~~~~~~~~"], random),
            lines: texts(size.min(4), &[b"A031", b"A0312", b"A", b"31"], random),
            stops: texts(size.min(6), &[b"S1", b"S10", b"S", b"40004412", b" "], random),
            destinations: texts(size.min(4), &[b"CIOS", b"X00817887", b"A07726982"], random),
            levels: texts(size.min(4), &[b"2159042", b"2159043", b"L"], random),
            dates: dates(size.min(4), random),
            journeys: spread(size, &[0, 1, 2, 99, 255, 256, 65_535, 65_536, 999_998, 999_999], 1_000_000, random),
            fortifies: narrow(spread(2, &[0, 0, 1, 98, 99], 100, random)),
            orders: narrow(spread(size.min(5), &[0, 1, 2, 3, 255, 256, 998, 999], 1_000, random)),
            times: times(size, random),
            senders: (0..3).map(|_| *random.pick(&[1, 2, 3, 7, 128, 254, 255])).collect(),
            busy: false,
        }
    }

    /// A world of many journeys at two stops: boards with several rows, in an order that is not the keys'.
    pub fn busy(random: &mut Random) -> World {
        let mut world = World::new(4, random);
        world.owners.truncate(*random.pick(&[1, 1, 2]));
        world.stops.truncate(*random.pick(&[1, 1, 2]));
        world.lines.truncate(2);
        world.levels.truncate(1);
        world.dates.truncate(2);
        world.journeys = (0..12).map(|_| random.below(1_000_000) as u32).collect();
        world.orders = vec![1, 2];
        // One in four is a relief journey, which is seen only where it was heard of.
        world.fortifies = vec![0, 0, 0, *random.pick(&[1, 2, 99])];
        // Around midnight, written as times of the one day and of the next.
        let late: Vec<u32> = (0..12).map(|_| 85_000 + random.below(3_000) as u32).collect();
        let early = late.iter().filter_map(|time| time.checked_sub(86_400));
        world.times = early.chain(late.iter().copied()).collect();
        world.busy = true;
        world
    }

    /// A world with keys for a full table, and dates for plans beyond it. Where it is dense, texts
    /// and numbers are so short that a dossier holds as many rows as it can.
    pub fn large(dense: bool, random: &mut Random) -> World {
        let first = day_of_number(20_160_225);
        let mut world = World::new(40, random);
        world.dates = (first..first + 12).map(number_of_day).collect();
        world.journeys = (0..200).map(|_| random.below(1_000_000) as u32).collect();
        if dense {
            world.owners = letters(b"AB");
            world.lines = letters(b"CDE");
            world.stops = letters(b"FG");
            world.destinations = letters(b"H");
            world.levels = letters(b"L");
            world.journeys = (0..400).collect();
        }
        world
    }

    pub fn key(&self, random: &mut Random) -> Key {
        Key {
            owner: *random.pick(&self.owners),
            date: *random.pick(&self.dates),
            line: *random.pick(&self.lines),
            journey: *random.pick(&self.journeys),
            fortify: *random.pick(&self.fortifies),
            stop: *random.pick(&self.stops),
            order: *random.pick(&self.orders),
        }
    }

    /// A sound passage of this role with this key.
    pub fn passage(&self, key: Key, role: Role, random: &mut Random) -> Passage {
        let stop_type = *random.pick(if self.busy { &[0, 1, 1, 1, 1, 1, 1, 2] } else { &[0, 1, 1, 1, 2] });
        let plan = role == Role::Plan;
        let statuses: &[u8] = if self.busy { &[0, 0, 1, 2, 3, 3, 3, 4, 4, 5] } else { &[0, 1, 2, 3, 4, 5] };
        let flexibles: &[u8] = match (role, self.busy) {
            (Role::Update, false) => &[1, 2, 3],
            (Role::Update, true) => &[1, 1, 1, 1, 2, 3],
            (_, false) => &[0, 0, 1, 2, 3],
            (_, true) => &[0, 0, 0, 0, 1, 1, 2, 3],
        };
        Passage {
            key,
            destination: *random.pick(&self.destinations),
            stamp: if matches!(role, Role::Plan | Role::Row { heard: false }) { 0 } else { stamp(random) },
            status: if plan { 0 } else { *random.pick(statuses) },
            arrival: self.time(stop_type == FIRST, random),
            departure: self.time(stop_type == LAST, random),
            stop_type,
            show_cancelled: if plan { 1 } else { optional(role, &[0, 1, 1, 2], random) },
            flexible: optional(role, flexibles, random),
            monitored: if plan { 0 } else { optional(role, &[0, 1], random) },
        }
    }

    fn time(&self, may_miss: bool, random: &mut Random) -> u32 {
        match random.below(8) {
            0 | 1 if may_miss => NO_TIME,
            2 => random.below(115_200) as u32,
            _ => *random.pick(&self.times),
        }
    }
}

/// Texts of one byte each.
fn letters(letters: &[u8]) -> Vec<Text> {
    letters.iter().map(|&letter| padded(&[letter])).collect()
}

/// One of the contents, or in updates now and then none.
fn optional(role: Role, contents: &[u8], random: &mut Random) -> u8 {
    if role == Role::Update && random.one_in(3) {
        KEPT
    } else {
        *random.pick(contents)
    }
}

/// A timestamp that a field can give, at times one at the range's ends.
fn stamp(random: &mut Random) -> u32 {
    const LEAST: u32 = 946_634_400;
    const MOST: u32 = 4_102_495_199;
    match random.below(12) {
        0 => LEAST,
        1 => MOST,
        2 => LEAST + random.below(100_000) as u32,
        3 => MOST - random.below(100_000) as u32,
        4 => random.range(LEAST as usize, MOST as usize) as u32,
        _ => 1_456_790_400 + random.below(172_800) as u32,
    }
}

/// Known texts and a few random ones.
fn texts(count: usize, known: &[&[u8]], random: &mut Random) -> Vec<Text> {
    (0..count.max(1))
        .map(|_| match random.below(5) {
            0 => {
                let length = random.range(1, 10);
                let bytes: Vec<u8> = (0..length).map(|_| random.range(32, 126) as u8).collect();
                padded(&bytes)
            }
            1 => padded(random.pick::<&[u8]>(&[b"|", br"\", br"a|b\", br"\\\\\\\\\\", b"||||||||||", b" x ", b"~"])),
            _ => padded(random.pick::<&[u8]>(known)),
        })
        .collect()
}

/// Days next to each other, so that times after midnight meet those of the next day; mostly over a month's border.
fn dates(count: usize, random: &mut Random) -> Vec<u32> {
    let known = *random.pick(&[20_000_101, 20_000_228, 20_160_228, 20_161_231, 20_230_228, 20_991_230, 20_991_228]);
    let month = random.range(1, 1_199) as u32;
    let border = (2000 + month / 12) * 10_000 + (month % 12 + 1) * 100 + 1;
    let first = if random.one_in(4) { known } else { number_of_day(day_of_number(border) - 1) };
    let last = day_of_number(20_991_231);
    (0..count.max(1) as i64).map(|step| number_of_day((day_of_number(first) + step).min(last))).collect()
}

/// Some of the edges and some random numbers below the limit.
fn spread(count: usize, edges: &[u32], limit: usize, random: &mut Random) -> Vec<u32> {
    (0..count.max(1)).map(|_| if random.one_in(3) { random.below(limit) as u32 } else { *random.pick(edges) }).collect()
}

fn narrow<T: TryFrom<u32>>(numbers: Vec<u32>) -> Vec<T> {
    numbers.into_iter().filter_map(|number| T::try_from(number).ok()).collect()
}

/// Times close to each other, and the same clock moments written as times of the day before.
fn times(count: usize, random: &mut Random) -> Vec<u32> {
    let centre = *random.pick(&[0, 600, 28_000, 43_200, 86_000, 86_399, 86_400, 114_000, 115_199]);
    let mut times = Vec::new();
    for _ in 0..count.max(3) {
        let time = (centre + random.below(1_200)).min(115_199) as u32;
        times.push(time);
        if time >= 86_400 {
            times.push(time - 86_400);
        } else if time < 28_800 {
            times.push(time + 86_400);
        }
    }
    times
}
