//! Messages and withdrawals at random against a slow, literal reckoning, and
//! soundness against a literal check of every field.

use checks::on_every_side;
use checks::sides::Side;

use crate::desk::*;
use std::collections::BTreeMap;

on_every_side! {
    messages_and_withdrawals_at_random
    soundness_at_random
    an_all_zero_book_or_table_is_unsound
    boards_at_random
    opens_at_random
}

const ALLOWED: [&str; 6] = ["NJJJJJ", "JJNJJJ", "NJJJJJ", "NJJJJJ", "NJJNJJ", "NNNNJJ"];

fn apply(held: Option<Vec<u8>>, body: &[u8]) -> Vec<u8> {
    let mut row = held.unwrap_or_else(|| {
        let mut row = body.to_vec();
        row.push(0);
        (row[55], row[63], row[64], row[65]) = (0, 1, 0, 0);
        row
    });
    let held = row.clone();
    row[41..66].copy_from_slice(&body[41..66]);
    if ALLOWED[held[55] as usize].as_bytes()[body[55] as usize] == b'N' {
        row[55] = held[55];
    }
    for at in 63..66 {
        if body[at] == 255 {
            row[at] = held[at];
        }
    }
    row[66] = 1;
    row
}

/// The row of a key from the book alone.
fn reckon(book: &[u8], key: &[u8]) -> Option<Vec<u8>> {
    let (mut at, mut row) = (0, None);
    while at < book.len() {
        if book[at] == 1 {
            if book[at + 1..at + 42] == *key {
                row = Some([&book[at + 1..at + 67], &[0]].concat());
            }
            at += 67;
        } else {
            if book[at] == 2 && book[at + 6..at + 47] == *key {
                row = Some(apply(row, &book[at + 6..at + 72]));
            }
            at += 72;
        }
    }
    row
}

fn rows_of<S: Side>(desk: &Desk<S>) -> BTreeMap<Vec<u8>, Vec<u8>> {
    (0..desk.rows as usize).map(|i| (desk.row(i)[..41].to_vec(), desk.row(i).to_vec())).collect()
}

fn some_row(random: &mut Random) -> String {
    let status = ["PLANNED", "CANCEL", "UNKNOWN", "DRIVING", "ARRIVED", "PASSED"][random.next(6)];
    let kind = ["10:00:00|11:00:00|INTERMEDIATE", "\\0|12:00:00|FIRST", "13:00:00|\\0|LAST"][random.next(3)];
    format!(
        "CXX|2016-03-0{}|A031|{}|0|S{}|{}|D{}|2016-03-01T15:15:3{}+01:00|{status}|{kind}|{}|{}|{}",
        1 + random.next(2),
        random.next(3),
        random.next(2),
        random.next(4),
        random.next(9),
        random.next(9),
        ["\\0", "0", "1"][random.next(3)],
        ["\\0", "TRUE", "FALSE", "REALTIME"][random.next(4)],
        ["\\0", "0", "1"][random.next(3)],
    )
}

fn some_plan<S: Side>(random: &mut Random) -> Desk<S> {
    let mut desk = Desk::<S>::new(40_000 + random.next(100), 60 * 67 + random.next(67));
    let mut passes = Vec::new();
    for journey in 0..3 {
        for order in 0..3 {
            if random.next(2) == 0 {
                passes.push(format!(
                    "CXX|w|A031|{journey}|0|S{}|{order}|D|10:00:00|10:00:00|INTERMEDIATE|TRUE",
                    random.next(2)
                ));
            }
        }
    }
    let days = calendar(&[day("w", "2016-03-02"), day("w", "2016-03-01")]);
    assert_eq!(desk.open(&planning(&passes), &days)[..2], [0, 0]);
    assert_eq!(desk.rows as usize, passes.len() * 2);
    desk
}

/// Makes the table forget, and makes it hold what the book does not know.
fn disturb<S: Side>(desk: &mut Desk<S>, random: &mut Random) {
    let mut kept: Vec<Vec<u8>> = rows_of(desk).into_values().collect();
    kept.retain(|_| random.next(4) != 0);
    for row in &mut kept {
        if random.next(3) == 0 {
            row[55] = random.next(6) as u8;
            row[42] = b'q';
        }
        if random.next(5) == 0 {
            row[40] = 100 + random.next(100) as u8;
        }
    }
    kept.sort();
    kept.dedup_by(|a, b| a[..41] == b[..41]);
    desk.rows = kept.len() as u64;
    let bytes = kept.concat();
    desk.table[..bytes.len()].copy_from_slice(&bytes);
}

fn messages_and_withdrawals_at_random<S: Side>() {
    let mut random = Random(0x1234_5678_9abc_def1);
    for round in 0..400 {
        let disagree = round % 2 == 1;
        let mut desk = some_plan::<S>(&mut random);
        let mut sent = 0;
        for _ in 0..12 {
            if disagree && random.next(3) == 0 {
                disturb(&mut desk, &mut random);
            }
            let mut model = rows_of(&desk);
            if sent == 0 || random.next(2) == 0 {
                let rows: Vec<String> = (0..1 + random.next(12)).map(|_| some_row(&mut random)).collect();
                let from = desk.used as usize;
                let answer = desk.send(&rows);
                sent += 1;
                assert_eq!(answer[..4], [0, sent, 0, 0]);
                assert_eq!(answer[4] as usize, from + rows.len() * 72);
                for entry in desk.book[from..answer[4] as usize].chunks(72) {
                    assert_eq!(entry[..6], [2, 0, 0, 0, sent as u8, 7]);
                    let held = model.remove(&entry[6..47]);
                    model.insert(entry[6..47].to_vec(), apply(held, &entry[6..]));
                }
            } else {
                let number = 1 + random.next(sent as usize) as u32;
                let before = desk.book.clone();
                let answer = desk.withdraw(number, [0, 7][random.next(2)]);
                if answer[0] != 0 {
                    assert_eq!(answer[0], 11);
                    continue;
                }
                let used = desk.used as usize;
                let mut named = Vec::new();
                let mut at = 0;
                while at < used {
                    if before[at] == 1 {
                        at += 67;
                        continue;
                    }
                    let ours = before[at + 1..at + 5] == number.to_be_bytes();
                    assert_eq!(desk.book[at], if ours { 3 } else { before[at] });
                    if ours {
                        named.push(before[at + 6..at + 47].to_vec());
                    }
                    at += 72;
                }
                for key in named {
                    match reckon(&desk.book[..used], &key) {
                        Some(row) => model.insert(key, row),
                        None => model.remove(&key),
                    };
                }
            }
            assert!(rows_of(&desk) == model);
            assert_eq!(desk.rows as usize, model.len());
            if !disagree {
                for (key, row) in &model {
                    assert_eq!(reckon(&desk.book[..desk.used as usize], key).as_ref(), Some(row));
                }
            }
        }
    }
}

fn number(bytes: &[u8]) -> u64 {
    bytes.iter().fold(0, |n, &b| n << 8 | b as u64)
}

fn text(bytes: &[u8]) -> bool {
    let end = bytes.iter().position(|&b| b == 0).unwrap_or(bytes.len());
    end > 0 && bytes[..end].iter().all(|b| (32..=126).contains(b)) && bytes[end..].iter().all(|&b| b == 0)
}

fn date(n: u64) -> bool {
    let (y, m, d) = (n / 10_000, n / 100 % 100, n % 100);
    let days = match m {
        2 if y % 4 == 0 => 29,
        2 => 28,
        4 | 6 | 9 | 11 => 30,
        1..=12 => 31,
        _ => 0,
    };
    (2000..2100).contains(&y) && d >= 1 && d <= days
}

/// Kind 0 stands for a table row, whose heard byte follows.
fn body(b: &[u8], kind: u8) -> bool {
    let stamp = number(&b[51..55]);
    let time = |at: usize, other: u8| {
        number(&b[at..at + 3]) <= 115_199 || number(&b[at..at + 3]) == 16_777_215 && b[62] == other
    };
    let all = text(&b[..10])
        && date(number(&b[10..14]))
        && text(&b[14..24])
        && number(&b[24..28]) <= 999_999
        && b[28] <= 99
        && text(&b[29..39])
        && number(&b[39..41]) <= 999
        && text(&b[41..51])
        && b[55] <= 5
        && time(56, 0)
        && time(59, 2)
        && b[62] <= 2;
    let stamped = (946_634_400..=4_102_495_199).contains(&stamp);
    all && match kind {
        0 => b[66] <= 1 && (if b[66] == 1 { stamped } else { stamp == 0 }) && b[63] <= 2 && b[64] <= 3 && b[65] <= 1,
        1 => stamp == 0 && b[55] == 0 && b[63] == 1 && b[64] <= 3 && b[65] == 0,
        _ => {
            stamped
                && [0, 1, 2, 255].contains(&b[63])
                && [1, 2, 3, 255].contains(&b[64])
                && [0, 1, 255].contains(&b[65])
        }
    }
}

fn table_sound(t: &[u8]) -> bool {
    let rows: Vec<&[u8]> = t.chunks(67).collect();
    rows.iter().all(|r| body(r, 0)) && rows.windows(2).all(|w| w[0][..41] < w[1][..41])
}

fn book_sound(b: &[u8]) -> bool {
    let (mut at, mut plan, mut last): (usize, Vec<&[u8]>, Option<&[u8]>) = (0, Vec::new(), None);
    while at < b.len() {
        let length = match b[at] {
            1 => 67,
            2 | 3 => 72,
            _ => return false,
        };
        if at + length > b.len() {
            return false;
        }
        let e = &b[at..at + length];
        at += length;
        if e[0] == 1 {
            if last.is_some() || !body(&e[1..], 1) || plan.last().is_some_and(|p| p[..41] >= e[1..42]) {
                return false;
            }
            plan.push(&e[1..]);
            continue;
        }
        let n = number(&e[1..5]);
        let held = last.map_or(0, |l| number(&l[1..5]));
        let follows = n == held + 1 || last.is_some_and(|l| l[..6] == e[..6]);
        if !follows || e[5] == 0 || !body(&e[6..], 2) {
            return false;
        }
        last = Some(e);
    }
    true
}

fn soundness_at_random<S: Side>() {
    let mut random = Random(0xfeed_beef_1357_2468);
    let mut counts = [0; 4];
    for _ in 0..300 {
        let mut desk = some_plan::<S>(&mut random);
        for n in 1..3 {
            let rows: Vec<String> = (0..1 + random.next(4)).map(|_| some_row(&mut random)).collect();
            desk.send(&rows);
            if random.next(3) == 0 {
                desk.withdraw(n, 0);
            }
        }
        let (used, rows) = (desk.used as usize, desk.rows as usize * 67);
        assert!(book_sound(&desk.book[..used]) && table_sound(&desk.table[..rows]));
        for _ in 0..400 {
            let value = match random.next(4) {
                0 => [0, 1, 2, 3, 255][random.next(5)],
                1 => random.next(256) as u8,
                2 => [31, 32, 126, 127, 99, 100][random.next(6)],
                _ => random.next(8) as u8,
            };
            let (mut b, mut t) = (desk.book.clone(), desk.table.clone());
            let at = random.next(rows.max(1));
            t[at] = value;
            if random.next(6) == 0 && at + 3 < rows {
                t[at..at + 3].fill(value);
            }
            let wanted = if table_sound(&t[..rows]) { 0 } else { 1 };
            counts[wanted] += 1;
            assert_eq!(S::board(b"x", b"y", 20160301, 0, 0, &t, desk.rows, &mut [])[0], wanted as u64, "{at} {value}");
            let at = random.next(used);
            b[at] = value;
            let mut used = used;
            match random.next(12) {
                0 => used -= 1 + random.next(72),
                1 if at + 3 < used => b[at..at + 3].fill(value),
                _ => {}
            }
            let wanted = if book_sound(&b[..used]) { 10 } else { 1 };
            counts[2 + (wanted == 1) as usize] += 1;
            assert_eq!(
                S::withdraw(0, 0, &mut b, &mut desk.table.clone(), used as u64, desk.rows)[0],
                wanted,
                "{at} {value}"
            );
        }
    }
    assert!(counts.iter().all(|&n| n > 5_000), "{counts:?}");
}

fn an_all_zero_book_or_table_is_unsound<S: Side>() {
    assert_eq!(S::withdraw(1, 0, &mut [0; 72], &mut [], 72, 0)[0], 1);
    assert_eq!(S::withdraw(1, 0, &mut [0; 67], &mut [], 67, 0)[0], 1);
    assert_eq!(S::board(b"x", b"y", 20160301, 0, 0, &[0; 67], 1, &mut [])[0], 1);
}

fn boards_at_random<S: Side>() {
    let mut random = Random(0x0ddb_a11c_0ffe_e123);
    let dates = ["2015-12-30", "2015-12-31", "2016-01-01", "2016-02-28", "2016-02-29", "2016-03-01"];
    let numbers = [20151230, 20151231, 20160101, 20160228, 20160229, 20160301];
    let day_of = [0i64, 1, 2, 60, 61, 62];
    let mut any = 0;
    for _ in 0..60 {
        let mut desk = Desk::<S>::big();
        let rows: Vec<String> = (0..120)
            .map(|i| {
                let time = random.next(115_200);
                let row = some_row(&mut random).replace("2016-03-01|", "DATE|").replace("2016-03-02|", "DATE|");
                let clock = format!("{:02}:{:02}:{:02}", time / 3600, time / 60 % 60, time % 60);
                row.replace("CXX|DATE", &format!("{}|{}", ["CXX", "CXY", "C"][random.next(3)], dates[random.next(6)]))
                    .replace("|A031|", &format!("|A{i}|"))
                    .replace("11:00:00", &clock)
                    .replace("12:00:00", &clock)
            })
            .collect();
        let register = [pair(7, "CXX"), pair(7, "CXY"), pair(7, "C")].concat();
        assert_eq!(desk.message(&updates(&rows), 7, &register)[0], 0);
        for _ in 0..60 {
            let d = random.next(6);
            let (second, horizon) = (random.next(86_400) as i64, [0, 3_600, 40_000, 86_400][random.next(4)] as i64);
            let (owner, stop) = (["CXX", "CXY", "C"][random.next(3)], ["S0", "S1"][random.next(2)]);
            let now = day_of[d] * 86_400 + second;
            let mut wanted: Vec<(i64, u32)> = Vec::new();
            for place in 0..desk.rows as usize {
                let r = desk.row(place);
                let day = day_of[numbers.iter().position(|&n| n == number(&r[10..14])).unwrap()];
                let moment = day * 86_400 + number(&r[59..62]) as i64;
                let same = |at: usize, text: &str| r[at..at + 10].iter().filter(|&&b| b != 0).eq(text.as_bytes());
                if same(0, owner)
                    && same(29, stop)
                    && r[62] != 2
                    && r[55] != 5
                    && now <= moment
                    && moment <= now + horizon
                    && (r[55] != 1 || r[63] == 1)
                    && (r[64] <= 1 || r[64] == 3 && r[65] == 1)
                {
                    wanted.push((moment, place as u32));
                }
            }
            wanted.sort();
            any += wanted.len();
            let mut places = vec![77; random.next(6)];
            let fit = wanted.len().min(places.len());
            let a = S::board(
                owner.as_bytes(),
                stop.as_bytes(),
                numbers[d] as u32,
                second as u32,
                horizon as u32,
                &desk.table,
                desk.rows,
                &mut places,
            );
            assert_eq!(a, [0, fit as u64, wanted.len() as u64]);
            assert!(
                places[..fit].iter().eq(wanted[..fit].iter().map(|(_, p)| p)) && places[fit..].iter().all(|&p| p == 77)
            );
        }
    }
    assert!(any > 1_000);
}

fn opens_at_random<S: Side>() {
    let mut random = Random(0x5eed_0f0b_e455_0001);
    let mut seen = [0; 10];
    for round in 0..600 {
        let mut desk = Desk::<S>::new(random.next(4_000), random.next(3_000));
        let spread = [2, 9, 40][round % 3];
        let (mut passes, mut days) = (Vec::new(), Vec::new());
        for _ in 0..random.next(30) {
            let owner = ["A", "AB", "CXX"][random.next(3)];
            let (level, line) = (random.next(4), random.next(3));
            let (journey, order) = (random.next(spread), random.next(spread));
            passes.push((owner, level, line, journey, order, random.next(80_000)));
        }
        for _ in 0..random.next(20) {
            let owner = ["A", "AB", "CXX"][random.next(3)];
            days.push((owner, random.next(5), 20160301 + random.next(spread.min(28)) as u32));
        }
        let pass_lines: Vec<String> = passes
            .iter()
            .map(|(owner, level, line, journey, order, time)| {
                let clock = format!("{:02}:{:02}:{:02}", time / 3600, time / 60 % 60, time % 60);
                format!("{owner}|L{level}|{line}|{journey}|0|S|{order}|D|\\0|{clock}|FIRST|REALTIME")
            })
            .collect();
        let day_lines: Vec<String> = days
            .iter()
            .map(|(owner, level, date)| {
                let (month, day) = (date / 100 % 100, date % 100);
                format!("{owner}|L{level}|2016-{month:02}-{day:02}")
            })
            .collect();
        let mut rows = Vec::new();
        for (owner, level, line, journey, order, time) in &passes {
            for (_, _, date) in days.iter().filter(|d| d.0 == *owner && d.1 == *level) {
                let mut row = vec![0; 67];
                row[..owner.len()].copy_from_slice(owner.as_bytes());
                row[10..14].copy_from_slice(&date.to_be_bytes());
                row[14] = b'0' + *line as u8;
                row[27] = *journey as u8;
                row[29] = b'S';
                row[40] = *order as u8;
                row[41] = b'D';
                row[56..59].fill(255);
                row[59..62].copy_from_slice(&(*time as u32).to_be_bytes()[1..]);
                (row[63], row[64]) = (1, 3);
                rows.push(row);
            }
        }
        rows.sort();
        let number = if rows.len() * 67 > desk.book.len() {
            7
        } else if rows.windows(2).any(|w| w[0][..41] == w[1][..41]) {
            9
        } else if rows.len() * 67 > desk.table.len() {
            8
        } else {
            0
        };
        seen[number] += 1;
        let answer = desk.open(&planning(&pass_lines), &calendar(&day_lines));
        let n = if number == 0 { rows.len() as u64 } else { 0 };
        assert_eq!(answer, [number as u64, 0, 0, 0, n * 67, n]);
        if number == 0 {
            assert!(desk.table[..rows.len() * 67] == rows.concat());
            let entries: Vec<u8> = rows.iter().flat_map(|r| [&[1], &r[..66]].concat()).collect();
            assert!(desk.book[..entries.len()] == entries);
        }
    }
    assert!([0, 7, 8, 9].iter().all(|&n| seen[n] > 3), "{seen:?}");
}
