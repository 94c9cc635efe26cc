//! Boards: each condition of the show rule decisive alone, the ends of the horizon, orders that are not the keys'.

use super::{number, Coverage};
use crate::call::{Call, Job, Outcome};
use crate::worlds::calendar::day_of_number;

const CONDITIONS: [&str; 9] =
    ["owner", "stop", "LAST", "PASSED", "before now", "behind the horizon", "CANCEL", "flexible", "not being heard of"];

impl Coverage {
    /// An accepted board.
    pub(super) fn shown(&mut self, job: &Job, outcome: &Outcome) {
        let Call::Board { owner, stop, date, second, horizon, places } = &job.call else { unreachable!("a board") };
        let [_, written, shown, ..] = outcome.answer;
        self.meet("board: accepted");
        self.meet_where(shown >= 2, "board: two rows and more");
        self.meet_where(shown >= 5, "board: five rows and more");
        self.meet_where(written < shown && written > 0, "board: cut by its places");
        self.meet_where(written < places.len() as u64, "board: places to spare");
        self.meet_where(
            outcome.places[..written as usize].windows(2).any(|pair| pair[0] > pair[1]),
            "board: not in the keys' order",
        );
        let now = day_of_number(*date) * 86_400 + i64::from(*second);
        let end = now + i64::from(*horizon);
        let mut moments = Vec::new();
        for row in job.lent.table[..job.lent.rows as usize * 67].chunks(67) {
            let departure = number(&row[59..62]);
            let moment = day_of_number(number(&row[10..14])) * 86_400 + i64::from(departure);
            let met = [
                text_is(&row[..10], owner),
                text_is(&row[29..39], stop),
                row[62] != 2,
                row[55] != 5,
                moment >= now,
                moment <= end || departure == 16_777_215,
                row[55] != 1 || row[63] == 1,
                matches!(row[64], 0 | 1) || row[64] == 3 && row[65] == 1,
                row[28] == 0 || row[66] == 1,
            ];
            match met.iter().filter(|met| !**met).count() {
                0 => {
                    moments.push(moment);
                    self.shown_row(row, moment, now, end);
                }
                1 => self.hidden_row(row, met.iter().position(|met| !met).expect("one"), moment, now, end),
                _ => {}
            }
        }
        moments.sort();
        self.meet_where(moments.windows(2).any(|pair| pair[0] == pair[1]), "board: equal moments");
    }

    fn shown_row(&mut self, row: &[u8], moment: i64, now: i64, end: i64) {
        self.meet_where(moment == now, "board: shown at now");
        self.meet_where(moment == end, "board: shown at the horizon's end");
        let days = moment.div_euclid(86_400) - day_of_number(number(&row[10..14]));
        self.meet_where(days == 1, "board: shown behind midnight of its operating day");
        self.meet_where(
            now.div_euclid(86_400) < moment.div_euclid(86_400),
            "board: shown behind midnight of the question",
        );
        self.meet_where(moment >= day_of_number(20_991_231) * 86_400 + 86_400, "board: shown on 2100-01-01");
        self.meet_where(row[55] == 1, "board: shown CANCEL");
        self.meet_where(row[63] == 2, "board: shown with message, not CANCEL");
        self.meet_where(row[64] == 1, "board: shown flexible TRUE");
        self.meet_where(row[64] == 3, "board: shown flexible REALTIME");
        self.meet_where(row[28] > 0, "board: shown relief journey");
        self.meet_where(row[28] == 0 && row[66] == 0, "board: shown unheard of");
    }

    fn hidden_row(&mut self, row: &[u8], condition: usize, moment: i64, now: i64, end: i64) {
        self.meet(format!("board: hidden by {} alone", CONDITIONS[condition]));
        self.meet_where(condition == 4 && moment == now - 1, "board: hidden a second before now");
        self.meet_where(condition == 5 && moment == end + 1, "board: hidden a second behind the horizon");
        self.meet_where(condition == 6 && row[63] == 2, "board: hidden by message alone");
        self.meet_where(condition == 7 && row[64] == 2, "board: hidden by FALSE alone");
        self.meet_where(condition == 7 && row[64] == 3, "board: hidden by REALTIME alone");
        self.meet_where(condition == 8 && row[28] == 1, "board: hidden relief journey 1");
        self.meet_where(condition == 8 && row[28] > 1, "board: hidden relief journey above 1");
    }

    /// 13, by the part of the question that is outside its range, where it is one alone.
    pub(super) fn not_asked(&mut self, job: &Job, outcome: &Outcome) {
        let Call::Board { owner, stop, second, horizon, .. } = &job.call else { unreachable!("a board") };
        if outcome.answer[0] != 13 {
            return;
        }
        let wrong = [!is_text(owner), !is_text(stop), *second > 86_399, *horizon > 86_400];
        let name = match wrong {
            [true, false, false, false] => "13: owner",
            [false, true, false, false] => "13: stop",
            [false, false, true, false] => "13: second",
            [false, false, false, true] => "13: horizon",
            [false, false, false, false] => "13: date",
            _ => "13: several",
        };
        self.meet(name);
    }
}

fn is_text(text: &[u8]) -> bool {
    (1..=10).contains(&text.len()) && text.iter().all(|byte| (32..=126).contains(byte))
}

fn text_is(padded: &[u8], text: &[u8]) -> bool {
    padded.starts_with(text) && padded[text.len()..].iter().all(|&byte| byte == 0)
}
