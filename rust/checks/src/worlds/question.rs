//! What a board is asked.

use super::calendar::{day_of_number, number_of_day, DAY_SECONDS};
use super::passage::{unpadded, Key};
use super::random::Random;

pub struct Question {
    pub owner: Vec<u8>,
    pub stop: Vec<u8>,
    pub date: u32,
    pub second: u32,
    pub horizon: u32,
}

impl Question {
    /// A question at the stop of this key; `now` is kept within the dates that may be asked.
    pub fn new(key: &Key, now: i64, horizon: u32) -> Question {
        let first = day_of_number(20_000_101) * DAY_SECONDS;
        let last = day_of_number(20_991_231) * DAY_SECONDS + DAY_SECONDS - 1;
        let now = now.clamp(first, last);
        Question {
            owner: unpadded(&key.owner).to_vec(),
            stop: unpadded(&key.stop).to_vec(),
            date: number_of_day(now.div_euclid(DAY_SECONDS)),
            second: now.rem_euclid(DAY_SECONDS) as u32,
            horizon,
        }
    }

    /// Sets one part to a value at or over its edge.
    pub fn spoil(&mut self, random: &mut Random) {
        const DATES: [u32; 10] = [
            0,
            19_991_231,
            21_000_101,
            20_230_229,
            20_161_301,
            20_160_100,
            20_160_431,
            20_991_232,
            u32::MAX,
            20_240_229,
        ];
        match random.below(5) {
            0 => self.date = *random.pick(&DATES),
            1 => self.second = *random.pick(&[86_399, 86_400, u32::MAX]),
            2 => self.horizon = *random.pick(&[86_400, 86_401, u32::MAX]),
            3 => spoil_text(&mut self.owner, random),
            _ => spoil_text(&mut self.stop, random),
        }
    }
}

fn spoil_text(text: &mut Vec<u8>, random: &mut Random) {
    let place = random.below(text.len() + 1);
    match random.below(6) {
        0 => text.clear(),
        1 => text.resize(10, 0),
        2 => text.resize(11, b'x'),
        3 => text.resize(10, b'x'),
        4 => text.insert(place, *random.pick(&[0, 31, 32, 126, 127, 128, 255])),
        _ => drop(text.pop()),
    }
}
