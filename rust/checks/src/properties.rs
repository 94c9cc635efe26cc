//! What must hold of days whatever every side says of them: these checks would see a mistake that all sides share. Each works on
//! generated days, and knows what the generator meant.

use std::collections::BTreeMap;

use crate::feeding::Feeding;
use crate::lines::pair;
use crate::panel::{listed, Day, Panel, Question};
use crate::worlds::columns::{self, Form, CALENDAR, PLANNING};
use crate::worlds::dossier::{group, table, Column, Dossier, Layout, Line, Table};
use crate::worlds::passage::{unpadded, Key, Passage};
use crate::worlds::plan::Plan;
use crate::worlds::random::Random;
use crate::worlds::world::{Role, World};

use self::days as properties;

listed! {
    properties: withdrawal_restores, columns_in_any_order, lines_in_any_order, places_are_a_prefix, replay_of_standing_rows,
        entries_as_meant, forms_alike;
}

/// A message that was accepted.
struct Sent {
    dossier: Vec<u8>,
    sender: u8,
    form: u32,
    bodies: Vec<Vec<u8>>,
    standing: bool,
}

/// A generated day with all that was meant by it.
struct Told<'a> {
    day: Day<'a>,
    world: World,
    random: Random,
    planning: Vec<u8>,
    calendar: Vec<u8>,
    plan: BTreeMap<Vec<u8>, Vec<u8>>,
    sent: Vec<Sent>,
}

/// A layout without so many columns that a dossier could be too long.
fn layout(random: &mut Random) -> Layout {
    *random.pick(&[Layout::Wanted, Layout::Permuted, Layout::Full])
}

/// A dossier of one wanted table.
fn written(table: Table, random: &mut Random) -> Vec<u8> {
    Dossier { group: group(random), tables: vec![table] }.bytes()
}

/// The body that a passage is to be kept as where the table has these columns: an optional column that is absent says nothing.
fn meant(passage: &Passage, columns: &[Column], nothing: u8) -> Vec<u8> {
    let mut body = passage.body().to_vec();
    let optional: [(&[&str], usize); 3] =
        [(&columns::SHOW_CANCELLED, 63), (&["ShowFlexibleTrip"], 64), (&["Monitored"], 65)];
    for (names, at) in optional {
        let wanted_here = nothing == 255 || at == 64;
        let named = |column: &Column| names.iter().any(|name| column.name == name.as_bytes());
        if wanted_here && !columns.iter().any(|column| column.kind.is_some() && named(column)) {
            body[at] = nothing;
        }
    }
    body
}

impl<'a> Told<'a> {
    /// A day that was opened, of a few passages and with room for many messages.
    fn new(panel: &'a Panel, seed: u64, number: u64) -> Told<'a> {
        let mut random = Random::new(seed, number);
        let world = World::new(random.range(2, 7), &mut random);
        loop {
            let plan = Plan::small(&world, &mut random);
            let times = table(&PLANNING, layout(&mut random), &plan.planning(), &mut random);
            let bodies = plan_bodies(&plan, &times.columns);
            let (planning, calendar) = (written(times, &mut random), calendar_of(&plan, &mut random));
            let mut day = Day::new(panel, 80_000 + random.below(100), 400 * 67 + random.below(67));
            let answer = day.open(planning.clone(), calendar.clone());
            let by_key: BTreeMap<Vec<u8>, Vec<u8>> =
                bodies.iter().map(|body| (body[..41].to_vec(), body.clone())).collect();
            assert_eq!(answer[0], if by_key.len() == bodies.len() { 0 } else { 9 });
            if answer[0] == 0 {
                return Told { day, world, random, planning, calendar, plan: by_key, sent: Vec::new() };
            }
        }
    }

    /// The rows of a message: of passages that the table has, and of others.
    fn passages(&mut self, form: u32) -> Vec<Passage> {
        let count = self.random.range(1, 9);
        let rows = self.day.state.rows as usize;
        let key = |told: &mut Told| {
            if rows > 0 && told.random.percent(60) {
                let at = told.random.below(rows) * 67;
                Key::read(&told.day.state.table[at..])
            } else {
                told.world.key(&mut told.random)
            }
        };
        (0..count)
            .map(|_| {
                let key = key(self);
                let mut passage = self.world.passage(key, Role::Update, &mut self.random);
                if form == 0 {
                    passage.in_old_form();
                }
                passage
            })
            .collect()
    }

    /// Sends a message in either form, which is accepted.
    fn send(&mut self) -> u32 {
        let form = self.random.below(2) as u32;
        let passages = self.passages(form);
        let lines: Vec<Line> = passages.iter().map(|passage| Line { passage, level: &passage.key.line }).collect();
        let table = table(columns::message(form), layout(&mut self.random), &lines, &mut self.random);
        let bodies = passages.iter().map(|passage| meant(passage, &table.columns, 255)).collect();
        let dossier = written(table, &mut self.random);
        let sender = *self.random.pick(&[1, 7, 128, 255]);
        let sent = Sent { dossier, sender, form, bodies, standing: true };
        let number = self.sent.len() as u64 + 1;
        let register = self.register(sent.sender);
        let answer = if self.random.one_in(3) {
            let wide = self.random.range(1, sent.dossier.len());
            let parts: Vec<&[u8]> = sent.dossier.chunks(wide.max(sent.dossier.len() / 20)).collect();
            let feeding = Feeding::of(sent.sender, &parts, &register, sent.bodies.len() * 66);
            self.day.feed(feeding.in_form(form)).answer
        } else {
            self.day.message_in(form, sent.dossier.clone(), sent.sender, &register)
        };
        assert_eq!(answer[..2], [0, number], "a message of right rows is accepted, whole or in parts");
        self.sent.push(sent);
        number as u32
    }

    fn register(&self, sender: u8) -> Vec<u8> {
        self.world.owners.iter().flat_map(|owner| pair(sender, unpadded(owner))).collect()
    }

    fn withdraw(&mut self, number: u32) {
        let desk = self.random.one_in(2);
        let sent = &mut self.sent[number as usize - 1];
        let sender = if desk { 0 } else { sent.sender };
        let expected = if sent.standing { 0 } else { 11 };
        sent.standing = false;
        assert_eq!(self.day.withdraw(number, sender)[0], expected);
    }

    /// Messages and withdrawals as they come.
    fn go_on(&mut self, calls: usize) {
        for _ in 0..calls {
            if self.sent.is_empty() || self.random.percent(60) {
                self.send();
            } else {
                let number = 1 + self.random.below(self.sent.len()) as u32;
                self.withdraw(number);
            }
        }
    }

    /// The used rows of the table.
    fn rows(&self) -> &[u8] {
        &self.day.state.table[..self.day.state.rows as usize * 67]
    }

    /// The rows that plan and standing messages give, by the rule as it is said here.
    fn replayed(&self) -> Vec<u8> {
        let mut rows: BTreeMap<Vec<u8>, Vec<u8>> = BTreeMap::new();
        for (key, body) in &self.plan {
            rows.insert(key.clone(), [&body[..], &[0]].concat());
        }
        for body in self.sent.iter().filter(|sent| sent.standing).flat_map(|sent| &sent.bodies) {
            let row = ruled(rows.get(&body[..41]), body);
            rows.insert(body[..41].to_vec(), row);
        }
        rows.into_values().flatten().collect()
    }
}

/// 7.2: the bodies of a plan, equal keys and all.
fn plan_bodies(plan: &Plan, columns: &[Column]) -> Vec<Vec<u8>> {
    let mut bodies = Vec::new();
    for time in plan.planning() {
        for valid in plan.calendar() {
            if time.passage.key.owner == valid.passage.key.owner && time.level == valid.level {
                let mut body = meant(time.passage, columns, 0);
                body[10..14].copy_from_slice(&valid.passage.key.date.to_be_bytes());
                bodies.push(body);
            }
        }
    }
    bodies
}

fn calendar_of(plan: &Plan, random: &mut Random) -> Vec<u8> {
    let days = table(&CALENDAR, layout(random), &plan.calendar(), random);
    written(days, random)
}

/// 6.1, 6.2: the row rule on bytes.
fn ruled(held: Option<&Vec<u8>>, body: &[u8]) -> Vec<u8> {
    const STAYS: [(u8, u8); 10] = [(0, 0), (1, 2), (2, 0), (3, 0), (4, 0), (4, 3), (5, 0), (5, 1), (5, 2), (5, 3)];
    let (status, optionals) = held.map_or((0, [1, 0, 0]), |row| (row[55], [row[63], row[64], row[65]]));
    let mut row = [body, &[1]].concat();
    if STAYS.contains(&(status, body[55])) {
        row[55] = status;
    }
    for (place, kept) in optionals.into_iter().enumerate() {
        if body[63 + place] == 255 {
            row[63 + place] = kept;
        }
    }
    row
}

pub mod days {
    use super::*;

    const DAYS: u64 = 150;

    /// Demand 3: on a day that was opened, a message and then its withdrawal leave the table as it was, byte for byte.
    pub fn withdrawal_restores(panel: &Panel) {
        for number in 0..DAYS {
            let mut told = Told::new(panel, 11, number);
            for _ in 0..8 {
                let before = told.rows().to_vec();
                let sent = told.send();
                if told.random.percent(70) {
                    told.withdraw(sent);
                    assert_eq!(told.rows(), before);
                }
            }
        }
    }

    /// 3.2: the same lines with their columns in another order, among others, and in several tables, give the same.
    pub fn columns_in_any_order(panel: &Panel) {
        for number in 0..DAYS {
            let mut told = Told::new(panel, 12, number);
            let form = number as u32 % 2;
            let passages = told.passages(form);
            let lines: Vec<Line> = passages.iter().map(|passage| Line { passage, level: &passage.key.line }).collect();
            let plain = table(columns::message(form), Layout::Wanted, &lines, &mut told.random);
            let before = told.day.clone();
            let register = told.register(9);
            let mut left = None;
            for _ in 0..4 {
                let tables = rearranged(&plain, columns::message(form), &mut told.random);
                let dossier = Dossier { group: group(&mut told.random), tables }.bytes();
                let mut day = before.clone();
                assert_eq!(day.message_in(form, dossier, 9, &register)[..2], [0, 1]);
                assert!(*left.get_or_insert_with(|| day.state.clone()) == day.state);
            }
        }
    }

    /// 7.2: pass times and validities in any order give the same plan.
    pub fn lines_in_any_order(panel: &Panel) {
        for number in 0..DAYS {
            let mut random = Random::new(13, number);
            let world = World::new(random.range(2, 7), &mut random);
            let plan = Plan::small(&world, &mut random);
            let mut times = table(&PLANNING, layout(&mut random), &plan.planning(), &mut random);
            let mut days = table(&CALENDAR, layout(&mut random), &plan.calendar(), &mut random);
            let mut left = None;
            for _ in 0..4 {
                random.shuffle(&mut times.rows);
                random.shuffle(&mut days.rows);
                let planning =
                    Dossier { group: Vec::new(), tables: rearranged(&times, &PLANNING, &mut random) }.bytes();
                let calendar = Dossier { group: Vec::new(), tables: rearranged(&days, &CALENDAR, &mut random) }.bytes();
                let mut day = Day::new(panel, 10_000, 10_000);
                let answer = day.open(planning, calendar);
                assert!(*left.get_or_insert_with(|| (answer, day.state.clone())) == (answer, day.state));
            }
        }
    }

    /// 8.3: k places are the first k of more; how many are shown does not depend on how many fit.
    pub fn places_are_a_prefix(panel: &Panel) {
        let mut shown_in_all = 0;
        for number in 0..DAYS {
            let mut told = Told::new(panel, 14, number);
            told.go_on(6);
            for _ in 0..4 {
                let rows = told.day.state.rows as usize;
                if rows == 0 {
                    continue;
                }
                let key = Key::read(&told.rows()[told.random.clone().below(rows) * 67..]);
                let (owner, stop) = (unpadded(&key.owner).to_vec(), unpadded(&key.stop).to_vec());
                let second = told.random.below(86_400) as u32;
                let question = Question { owner: &owner, stop: &stop, date: key.date, second, horizon: 86_400 };
                let (all, [_, _, shown]) = told.day.board(&question, 500);
                shown_in_all += shown;
                for lent in 0..=all.len() + 1 {
                    let (places, answer) = told.day.board(&question, lent);
                    assert_eq!(places, all[..lent.min(all.len())]);
                    assert_eq!(answer, [0, places.len() as u64, shown]);
                }
            }
        }
        assert!(shown_in_all > DAYS);
    }

    /// 7.5: a run's table is the replay of its plan and standing rows: by the rule as it is said here, and by a day on which only the
    /// standing messages were sent.
    pub fn replay_of_standing_rows(panel: &Panel) {
        for number in 0..DAYS {
            let mut told = Told::new(panel, 15, number);
            told.go_on(14);
            assert_eq!(told.rows(), told.replayed());
            let mut anew = Day::new(panel, 80_000, 400 * 67);
            assert_eq!(anew.open(told.planning.clone(), told.calendar.clone())[0], 0);
            for sent in told.sent.iter().filter(|sent| sent.standing) {
                let register = told.register(sent.sender);
                assert_eq!(anew.message_in(sent.form, sent.dossier.clone(), sent.sender, &register)[0], 0);
            }
            assert_eq!(told.rows(), &anew.state.table[..anew.state.rows as usize * 67], "as if it had never been");
        }
    }

    /// 7.2, 7.3: the book's entries are the bytes that were meant: the plan by key, then every message's rows in order.
    pub fn entries_as_meant(panel: &Panel) {
        for number in 0..DAYS {
            let mut told = Told::new(panel, 16, number);
            told.go_on(10);
            let mut book: Vec<u8> = told.plan.values().flat_map(|body| [&[1], &body[..]].concat()).collect();
            for (place, sent) in told.sent.iter().enumerate() {
                for body in &sent.bodies {
                    book.push(if sent.standing { 2 } else { 3 });
                    book.extend((place as u32 + 1).to_be_bytes());
                    book.push(sent.sender);
                    book.extend(body);
                }
            }
            let used = told.day.state.used as usize;
            assert_eq!(told.day.state.book[..used], book);
            assert!(told.day.state.book[used..].iter().all(|&byte| byte == 0xaa), "unused bytes stay");
        }
    }

    /// 3.1: the same rows in either form, each in its words, leave the same day; and a dossier without the columns that differ, in both.
    pub fn forms_alike(panel: &Panel) {
        for number in 0..DAYS {
            let mut told = Told::new(panel, 17, number);
            let passages = told.passages(0);
            let lines: Vec<Line> = passages.iter().map(|passage| Line { passage, level: &passage.key.line }).collect();
            let register = told.register(9);
            let differ = |column: &Column| {
                columns::SHOW_CANCELLED.iter().any(|name| column.name == name.as_bytes()) || column.name == b"Monitored"
            };
            let taken = |form: u32, table: Table| {
                let mut day = told.day.clone();
                let dossier = Dossier { group: Vec::new(), tables: vec![table] }.bytes();
                assert_eq!(day.message_in(form, dossier, 9, &register)[..2], [0, 1]);
                day.state
            };
            let [old, new] = [0, 1].map(|form| {
                // Of all columns, both tables have the same, or by one draw neither.
                let mut drawn = Random::new(18, number);
                table(columns::message(form), Layout::Wanted, &lines, &mut drawn)
            });
            let bare = |table: &Table| {
                let kept: Vec<usize> = (0..table.columns.len()).filter(|&at| !differ(&table.columns[at])).collect();
                Table {
                    title: table.title.clone(),
                    columns: kept
                        .iter()
                        .map(|&at| Column { name: table.columns[at].name.clone(), kind: None })
                        .collect(),
                    rows: table.rows.iter().map(|row| kept.iter().map(|&at| row[at].clone()).collect()).collect(),
                }
            };
            let bares = [(0, bare(&old)), (1, bare(&old)), (0, bare(&new))].map(|(form, table)| taken(form, table));
            assert!(bares[0] == bares[1] && bares[1] == bares[2]);
            assert!(taken(0, old) == taken(1, new));
        }
    }

    /// The same lines in the same order, in one table or two, the columns shuffled and with unwanted ones among them.
    fn rearranged(plain: &Table, form: &Form, random: &mut Random) -> Vec<Table> {
        let cut = random.below(plain.rows.len() + 1);
        let parts = if random.one_in(3) { vec![&plain.rows[..cut], &plain.rows[cut..]] } else { vec![&plain.rows[..]] };
        parts.into_iter().map(|rows| shuffled(&plain.columns, rows, form, random)).collect()
    }

    fn shuffled(columns: &[Column], rows: &[Vec<Vec<u8>>], form: &Form, random: &mut Random) -> Table {
        let mut places: Vec<Option<usize>> = (0..columns.len()).map(Some).collect();
        let more = random.below(6);
        places.resize(columns.len() + more, None);
        random.shuffle(&mut places);
        let name = |place: &Option<usize>| place.map_or(b"dataownercode".to_vec(), |place| columns[place].name.clone());
        let field = |place: &Option<usize>, row: &[Vec<u8>]| place.map_or(b"\\0".to_vec(), |place| row[place].clone());
        Table {
            title: form.name.as_bytes().to_vec(),
            columns: places.iter().map(|place| Column { name: name(place), kind: None }).collect(),
            rows: rows.iter().map(|row| places.iter().map(|place| field(place, row)).collect()).collect(),
        }
    }
}
