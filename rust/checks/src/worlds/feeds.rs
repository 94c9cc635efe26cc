//! Messages in parts: where a dossier is cut, what is lent with each part, and what else happens to a feed.

use super::passage::*;
use super::perturb::set_edge;
use super::random::Random;
use super::world::{Role, World};
use crate::feeding::{Feeding, Step};

/// A longer dossier is seldom cut into many parts: a side may read all of it anew at each.
const LONG: usize = 6_000;

/// More parts than these are not made.
const MOST_PARTS: usize = 40;

/// What a message is to say, from whom, and about how many rows it has.
pub struct Told {
    pub dossier: Vec<u8>,
    pub sender: u8,
    pub form: u32,
    pub register: Vec<u8>,
    pub rows: usize,
}

/// A feed of this message.
pub fn feeding(told: Told, world: &World, random: &mut Random) -> Feeding {
    let parts = cut(&told.dossier, random);
    let room = room(told.rows, random);
    let mut steps = vec![Step::Begin];
    steps.extend(fed(&parts, &told.register, room, random));
    steps.push(end(&told, room, random));
    change_course(&mut steps, &told, room, random);
    if random.one_in(7) {
        for _ in 0..*random.pick(&[1, 1, 2]) {
            let step = tamper(&told, world, random);
            // Mostly behind all parts: what is written before a row comes is lost.
            let last = steps.iter().rposition(|step| matches!(step, Step::End { .. })).unwrap_or(steps.len());
            let place = if random.one_in(4) { random.below(steps.len() + 1) } else { last };
            steps.insert(place, step);
        }
    }
    if random.one_in(20) {
        for _ in 0..*random.pick(&[1, 1, 1, 2, 4]) {
            steps.insert(random.range(1, steps.len()), damage(random));
        }
    }
    let lent = steps.iter().map(|step| match step {
        Step::Part { staging, .. } | Step::End { staging, .. } => *staging,
        _ => 0,
    });
    let staging = random.bytes(lent.max().unwrap_or(0));
    Feeding { sender: told.sender, form: told.form, staging, fill: *random.pick(&[0, 0xa5, 0xff]), steps }
}

/// The dossier in parts, mostly few, some of them empty.
fn cut(dossier: &[u8], random: &mut Random) -> Vec<Vec<u8>> {
    let mut cuts =
        if dossier.len() > LONG && !random.one_in(12) { few_cuts(dossier, random) } else { cuts(dossier, random) };
    if random.one_in(5) {
        for _ in 0..random.range(1, 3) {
            let again = if cuts.is_empty() || random.one_in(3) { 0 } else { *random.pick(&cuts) };
            cuts.push(*random.pick(&[again, again, 0, dossier.len()]));
        }
    }
    cuts.sort();
    let ends = cuts.iter().skip(1).copied().chain([dossier.len()]);
    let first = cuts.first().copied().unwrap_or(dossier.len());
    let mut parts = vec![dossier[..first].to_vec()];
    if !cuts.is_empty() {
        parts.extend(cuts.iter().zip(ends).map(|(&from, to)| dossier[from..to].to_vec()));
    }
    parts
}

fn few_cuts(dossier: &[u8], random: &mut Random) -> Vec<usize> {
    (0..*random.pick(&[0, 1, 1, 2, 3, 4])).map(|_| random.below(dossier.len() + 1)).collect()
}

fn cuts(dossier: &[u8], random: &mut Random) -> Vec<usize> {
    let behind =
        |wanted: &[u8]| -> Vec<usize> { (1..=dossier.len()).filter(|&at| wanted.contains(&dossier[at - 1])).collect() };
    let some = |mut places: Vec<usize>, random: &mut Random| {
        let most = *random.pick(&[1, 2, 4, 12, MOST_PARTS]);
        random.shuffle(&mut places);
        places.truncate(most);
        places
    };
    match random.below(12) {
        0 => Vec::new(),
        1 | 2 => some(behind(b"\r"), random),
        3 | 4 => some(behind(b"\\"), random),
        5 => some(behind(b"\n"), random),
        6 => some(behind(b"|\\\r\n0"), random),
        7 => {
            // Byte by byte, over a stretch.
            let from = random.below(dossier.len() + 1);
            (from..(from + MOST_PARTS).min(dossier.len())).collect()
        }
        8 => {
            let wide = *random.pick(&[2, 3, 7, 16, 64, 100, 1_000, LINE]);
            (1..MOST_PARTS).map(|count| count * wide).filter(|&at| at < dossier.len()).collect()
        }
        9 => (1..=3).filter_map(|back| dossier.len().checked_sub(back)).collect(),
        _ => few_cuts(dossier, random),
    }
}

/// Bytes of the staging area: those of all rows or more, just those, nearly, or too few.
fn room(rows: usize, random: &mut Random) -> usize {
    let exact = rows * BODY_WIDE;
    match random.below(24) {
        0 => 0,
        1 => exact.saturating_sub(1),
        2 => exact.saturating_sub(BODY_WIDE),
        3 => random.below(exact + 1),
        4..=8 => exact,
        9 | 10 => exact + random.below(BODY_WIDE),
        11 if random.one_in(8) => STAGING,
        _ => exact + random.below(4 * BODY_WIDE),
    }
}

/// The parts with what is lent with each: mostly the same with all.
fn fed(parts: &[Vec<u8>], register: &[u8], room: usize, random: &mut Random) -> Vec<Step> {
    let mut lent: Vec<(Vec<u8>, usize)> = vec![(register.to_vec(), room); parts.len()];
    if random.one_in(9) {
        let other = changed(register, random);
        let from = random.below(parts.len());
        let to = if random.one_in(2) { parts.len() } else { random.range(from, parts.len()) };
        let reversed = random.one_in(3);
        for (place, (register, _)) in lent.iter_mut().enumerate() {
            if (from..to).contains(&place) != reversed {
                *register = other.clone();
            }
        }
    }
    if random.one_in(9) {
        let other = match random.below(4) {
            0 => 0,
            1 => room.saturating_sub(BODY_WIDE),
            2 => room + random.below(3 * BODY_WIDE),
            _ => random.below(room + 1),
        };
        let from = random.below(parts.len());
        let to = random.range(from, parts.len());
        lent[from..to].iter_mut().for_each(|(_, staging)| *staging = other);
    }
    let steps = parts.iter().zip(lent);
    steps.map(|(bytes, (register, staging))| Step::Part { bytes: bytes.clone(), register, staging }).collect()
}

/// A register that grants less, more or the same, or has another length.
fn changed(register: &[u8], random: &mut Random) -> Vec<u8> {
    let mut pairs: Vec<Vec<u8>> = register.chunks(PAIR).map(<[u8]>::to_vec).collect();
    match random.below(8) {
        0 => pairs.clear(),
        1..=3 if !pairs.is_empty() => drop(pairs.remove(random.below(pairs.len()))),
        4 if !pairs.is_empty() => {
            let which = random.below(pairs.len());
            pairs[which][0] = pairs[which][0].wrapping_add(1);
        }
        5 => pairs.insert(random.below(pairs.len() + 1), vec![random.byte()]),
        6 => pairs.extend(vec![vec![0; PAIR]; 65]),
        _ => pairs.push(vec![1]),
    }
    pairs.concat()
}

fn end(told: &Told, room: usize, random: &mut Random) -> Step {
    let register = if random.one_in(12) { changed(&told.register, random) } else { told.register.clone() };
    let staging = match random.below(30) {
        0 => random.below(room + 1),
        1 => room.saturating_sub(1),
        2 => room + random.below(3 * BODY_WIDE),
        _ => room,
    };
    Step::End { register, staging, less: [0, 0] }
}

/// What else may happen to a feed than that it is begun, fed and ended.
fn change_course(steps: &mut Vec<Step>, told: &Told, room: usize, random: &mut Random) {
    let last = steps.len() - 1;
    let more = |random: &mut Random| Step::Part {
        bytes: random.pick::<&[u8]>(&[b"", b"\r\n", b"\\G\r\n", b"x"]).to_vec(),
        register: told.register.clone(),
        staging: room,
    };
    match random.below(40) {
        0 => steps.insert(random.below(last) + 1, Step::Clear),
        1 => {
            steps[0] = Step::Clear;
        }
        2 => {
            // Given up, and begun anew.
            let begun = steps[..random.range(1, last)].to_vec();
            steps.splice(0..0, begun);
        }
        3 | 4 => {
            // An end too early: at a line's end it may be taken, and what follows is of no begun feed.
            let early = end(told, room, random);
            steps.insert(random.range(1, last), early);
        }
        5 => steps.push(steps[last].clone()),
        6 | 7 => {
            let mut short = end(told, room, random);
            if let Step::End { staging, less, .. } = &mut short {
                match random.below(3) {
                    0 => less[0] = *random.pick(&[1, UPDATE_WIDE, 5 * UPDATE_WIDE, 300_000]),
                    1 => less[1] = *random.pick(&[1, ROW, 2 * ROW, 200_000]),
                    _ => *staging = staging.saturating_sub(*random.pick(&[1, BODY_WIDE])),
                }
            }
            steps.insert(last, short);
        }
        8 => {
            steps.push(more(random));
            if random.one_in(2) {
                steps.push(steps[last].clone());
            }
        }
        9 => {
            // More after a refused end.
            steps.insert(last, end(told, room, random));
            steps.insert(last + 1, more(random));
        }
        10 if random.one_in(4) => drop(steps.drain(1..last)),
        11 => {
            // The same memory for the next message.
            let first = steps.clone();
            steps.extend(first);
        }
        _ => {}
    }
}

/// Somebody writes into a staged row: a field at its edges, a byte, or the row of another passage.
fn tamper(told: &Told, world: &World, random: &mut Random) -> Step {
    let row = random.below(told.rows.max(1));
    let mut body = world.passage(world.key(random), Role::Update, random).body();
    let (at, bytes) = match random.below(6) {
        0 => (random.below(BODY_WIDE), vec![random.byte()]),
        1 | 2 => (0, body.to_vec()),
        3 => (OWNER_AT, body[OWNER_AT..OWNER_AT + TEXT_WIDE].to_vec()),
        _ => {
            let which = random.below(FIELDS.len() - 1);
            set_edge(&mut body, which, random);
            let field = FIELDS[which];
            (field.at, body[field.at..field.at + field.wide].to_vec())
        }
    };
    Step::Tamper { at: row * BODY_WIDE + at, bytes }
}

/// Somebody changes a number or a byte of the line, by little or to anything.
fn damage(random: &mut Random) -> Step {
    let at = if random.one_in(4) { layout::FEED + random.below(LINE) } else { random.below(layout::FEED) };
    let at = if at >= layout::FEED && random.one_in(2) { layout::FEED + random.below(40) } else { at };
    let small = random.range(1, 70) as u64;
    let add = match random.below(8) {
        0 => random.draw(),
        1 => u64::MAX,
        2 => small.wrapping_neg(),
        3 => 1 << random.below(64),
        4 => *random.pick(&[4_095, 4_096, 4_097, 65_535, 65_536, 65_537, 1 << 32]),
        _ => small,
    };
    Step::Damage { at, add }
}
