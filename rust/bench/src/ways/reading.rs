//! `reader` and the rooms below it: a message's rows into a staging area. Each line is looked for once more, each wanted column found in
//! it by counting bars and decoded by its kind's own function.

use super::{copy_to, day_count, is_date, put_number, same_bytes, syntax, BODY};

/// By form.
const NAMES: [&[u8]; 2] = [
    b"DataOwnerCode|OperationDate|LinePlanningNumber|VehicleJourneyNumber|FortifyOrderNumber|UserStopCode|\
    UserStopOrderNumber|DestinationCode|LastUpdateTimeStamp|TripStopStatus|ExpectedArrivalTime|ExpectedDepartureTime|\
    JourneyStopType|ShowCancelledTrip|ShowFlexibleTrip|Monitored",
    b"DataOwnerCode|OperationDate|LinePlanningNumber|VehicleJourneyNumber|FortifyOrderNumber|UserStopCode|\
    UserStopOrderNumber|DestinationCode|LastUpdateTimeStamp|TripStopStatus|ExpectedArrivalTime|ExpectedDepartureTime|\
    JourneyStopType|ShowCancelledJourney|ShowFlexibleTrip|Monitored",
];
/// The columns that must be there are the first; the place of JourneyStopType among them.
const MUST: usize = 13;
const STOP_TYPE: usize = 12;
/// Of each column, a hex digit each: its kind, by form; the two digits of its offset, and whether it is optional.
const KINDS: [u64; 2] = [0xaba9876504032010, 0xcbd9876504032010];
const COLUMNS: [u64; 3] = [0x4433333322111000, 0x10feb87397dc8ea0, 0x1110000000000000];

// `turbo`, `turbo_lines`, `turbo_labels`

fn find_from(s: &[u8], from: usize, x: u8) -> usize {
    (from..s.len()).find(|&k| s[k] == x).unwrap_or(s.len())
}

/// Where the first x stands, or the length: by eight, each with its own way out.
fn find(s: &[u8], x: u8) -> usize {
    let mut p = 0;
    while 8 <= s.len() - p {
        let near: &[u8; 8] = s[p..p + 8].try_into().unwrap();
        if let Some(j) = (0..8).find(|&j| near[j] == x) {
            return p + j;
        }
        p += 8;
    }
    find_from(s, p, x)
}

/// The same for an x that is far off: by sixteen without a branch, then by bytes.
fn find_far(s: &[u8], x: u8) -> usize {
    let mut p = 0;
    while 16 <= s.len() - p && !s[p..p + 16].iter().fold(false, |any, &b| any | (b == x)) {
        p += 16;
    }
    find_from(s, p, x)
}

fn count_fields(line: &[u8]) -> usize {
    let bars = |block: &[u8]| block.iter().fold(0u8, |n, &b| n + (b == b'|') as u8) as usize;
    let (wide, rest) = line.as_chunks::<64>();
    let (narrow, rest) = rest.as_chunks::<16>();
    wide.iter().map(|block| bars(block)).sum::<usize>()
        + narrow.iter().map(|block| bars(block)).sum::<usize>()
        + bars(rest)
        + 1
}

/// A field's size, and the tail that starts after its bar.
fn read_field(t: &[u8]) -> (usize, &[u8]) {
    let n = find(t, b'|');
    (n, if n < t.len() { &t[n + 1..] } else { &t[n..] })
}

fn rest_after_bars(line: &[u8], k: usize) -> &[u8] {
    (0..k).fold(line, |t, _| read_field(t).1)
}

/// The places of the wanted names among the labels, each looked for in all of them; none if one stands twice.
fn find_columns(form: usize, labels: &[u8]) -> Option<[usize; 16]> {
    let labels: Vec<&[u8]> = labels.split(|&b| b == b'|').collect();
    let mut places = [labels.len(); 16];
    for (place, name) in places.iter_mut().zip(NAMES[form].split(|&b| b == b'|')) {
        let mut found = (0..labels.len()).filter(|&k| same_bytes(labels[k], name));
        *place = found.next().unwrap_or(labels.len());
        if found.next().is_some() {
            return None;
        }
    }
    Some(places)
}

// `field_types`, `texts`

fn read_number(f: &[u8], most: usize) -> Option<u32> {
    if f.is_empty() || most < f.len() {
        return None;
    }
    f.iter().try_fold(0, |n, b| b.is_ascii_digit().then(|| n * 10 + (b - 48) as u32))
}

/// `w` digits, a mark, two digits, a mark, two digits.
fn read_triple(f: &[u8], w: usize, mark: u8) -> Option<(u32, u32, u32)> {
    if f.len() != w + 6 || f[w] != mark || f[w + 3] != mark {
        return None;
    }
    Some((read_number(&f[..w], w)?, read_number(&f[w + 1..w + 3], 2)?, read_number(&f[w + 4..], 2)?))
}

fn read_clock(f: &[u8], most: u32) -> Option<u32> {
    let (h, m, s) = read_triple(f, 2, b':')?;
    (h <= most && m <= 59 && s <= 59).then_some(h * 3600 + m * 60 + s)
}

fn read_date(f: &[u8]) -> Option<u32> {
    let (y, m, d) = read_triple(f, 4, b'-')?;
    Some(y * 10_000 + m * 100 + d).filter(|&date| is_date(date))
}

fn read_stamp(f: &[u8]) -> Option<u32> {
    if f.len() != 25 || f[10] != b'T' || !(f[19] == b'+' || f[19] == b'-') || f[22] != b':' {
        return None;
    }
    let (date, second) = (read_date(&f[..10])?, read_clock(&f[11..19], 23)?);
    let (h, m) = (read_number(&f[20..22], 2)?, read_number(&f[23..], 2)?);
    let (local, offset) = ((10_957 + day_count(date)) * 86_400 + second, (h * 60 + m) * 60);
    (m <= 59 && h * 60 + m <= 840).then_some(if f[19] == b'-' { local + offset } else { local - offset })
}

/// A text of 1 to 10 bytes, each 32 to 126 after decoding: byte by byte.
fn read_text(f: &[u8]) -> Option<[u8; 10]> {
    let (mut out, mut n, mut after) = ([0; 10], 0, false);
    for &b in f {
        let meant = match (after, b) {
            (false, b'\\') => {
                after = true;
                continue;
            }
            (false, b) => b,
            (true, b'i') => b'\\',
            (true, b'p') => b'|',
            (true, _) => 0,
        };
        if !(32..=126).contains(&meant) || n == 10 {
            return None;
        }
        out[n] = meant;
        n += 1;
        after = false;
    }
    (!after && n != 0).then_some(out)
}

/// 1 to 10 bytes, none of them an escape: copied as they stand.
fn is_plain(f: &[u8]) -> bool {
    (1..=10).contains(&f.len()) && f.iter().all(|&b| (32..=126).contains(&b) && b != b'\\')
}

fn write_text(f: &[u8], row: &mut [u8], at: usize) -> bool {
    if is_plain(f) {
        copy_to(row, at, &[0; 10]);
        copy_to(row, at, f);
        return true;
    }
    read_text(f).map(|kept| copy_to(row, at, &kept)).is_some()
}

/// The code of a word: compared with one after another.
fn read_word(f: &[u8], words: &[&[u8]], first: u32) -> Option<u32> {
    words.iter().position(|word| same_bytes(f, word)).map(|code| first + code as u32)
}

// `columns_cells`

/// A time, or none where the row's own stop type is `word`; that is looked up only where the time has no content.
fn read_time(word: &[u8], line: &[u8], stop: usize, f: &[u8]) -> Option<u32> {
    if !same_bytes(f, b"\\0") {
        return read_clock(f, 31);
    }
    let tail = rest_after_bars(line, stop);
    same_bytes(&tail[..find(tail, b'|')], word).then_some(16_777_215)
}

fn write_cell(kind: u8, line: &[u8], stop: usize, f: &[u8], row: &mut [u8], at: usize) -> bool {
    let mut write = |w: usize, n: Option<u32>| n.map(|n| put_number(row, at, w, n)).is_some();
    match kind {
        0 => write_text(f, row, at),
        1 => write(4, read_date(f)),
        2 => write(4, read_number(f, 6)),
        3 => write(1, read_number(f, 2)),
        4 => write(2, read_number(f, 3)),
        5 => write(4, read_stamp(f)),
        6 => write(1, read_word(f, &[b"PLANNED", b"CANCEL", b"UNKNOWN", b"DRIVING", b"ARRIVED", b"PASSED"], 0)),
        7 => write(3, read_time(b"FIRST", line, stop, f)),
        8 => write(3, read_time(b"LAST", line, stop, f)),
        9 => write(1, read_word(f, &[b"FIRST", b"INTERMEDIATE", b"LAST"], 0)),
        10 => write(1, read_word(f, &[b"0", b"1"], 0)),
        11 => write(1, read_word(f, &[b"TRUE", b"FALSE", b"REALTIME"], 1)),
        12 => write(1, read_word(f, &[b"false", b"true"], 0)),
        _ => write(1, read_word(f, &[b"false", b"true", b"message"], 0)),
    }
}

// `rows`

/// What is kept of a label line: where the wanted columns stand, and in which order a data line is read.
#[derive(Clone, Copy, Default)]
struct Shape {
    form: usize,
    count: usize,
    places: [usize; 16],
    found: usize,
    order: [usize; 16],
}

fn read_labels(form: usize, labels: &[u8]) -> Option<Shape> {
    let (places, count) = (find_columns(form, labels)?, count_fields(labels));
    if places[..MUST].contains(&count) {
        return None;
    }
    let mut order = std::array::from_fn(|j| j);
    order.sort_by_key(|&j| places[j]);
    Some(Shape { form, count, places, found: places.iter().filter(|&&place| place < count).count(), order })
}

/// A row, zero bytes behind it; or the first column, from 1, whose field is outside its type.
fn read_row(h: Shape, line: &[u8]) -> Result<[u8; 80], usize> {
    let mut row = [0; 80];
    row[63..66].fill(255);
    let (mut rest, mut at) = (line, 0);
    for s in 0..h.found {
        let j = h.order[s];
        let p = h.places[j];
        let here = rest_after_bars(rest, p - at);
        let (size, after) = read_field(here);
        let f = &here[..size];
        let digit = |packed: u64| ((packed >> (4 * j)) % 16) as u8;
        let (kind, [high, low, optional]) = (digit(KINDS[h.form]), COLUMNS.map(digit));
        let empty = optional == 1 && same_bytes(f, b"\\0");
        if !empty && !write_cell(kind, line, h.places[STOP_TYPE], f, &mut row, high as usize * 16 + low as usize) {
            return Err(p + 1);
        }
        rest = after;
        at = p + 1;
    }
    Ok(row)
}

// `reader_step`, `reader`

/// What is kept of the lines so far; it goes by value from line to line. `place`: 0 outside the table, 1 between its `\T` and `\L` lines,
/// 2 under its labels. `refused`: the first three numbers of an answer, of a field, an owner, or nothing.
#[derive(Clone, Copy, Default)]
struct State {
    place: u8,
    line: usize,
    refused: [u64; 3],
    rows: usize,
    shape: Shape,
}

fn data_step(s: State, line: &[u8], register: &[u8], sender: u8, staging: &mut [u8]) -> State {
    let at_line = s.line as u64;
    if count_fields(line) != s.shape.count {
        return State { refused: [4, at_line, 0], ..s };
    }
    if s.refused[0] == 5 {
        return s;
    }
    let row = match read_row(s.shape, line) {
        Err(column) => return State { refused: [5, at_line, column as u64], ..s },
        Ok(_) if s.refused[0] == 6 => return s,
        Ok(row) => row,
    };
    let granted = |pair: &[u8]| pair[0] == sender && same_bytes(&pair[1..], &row[..10]);
    if sender == 0 || !register.chunks_exact(11).any(granted) {
        return State { refused: [6, at_line, 0], ..s };
    }
    copy_to(staging, s.rows * BODY, &row[..BODY]);
    State { rows: s.rows + 1, ..s }
}

fn line_step(s: State, line: &[u8], register: &[u8], sender: u8, staging: &mut [u8]) -> State {
    match if line.len() < 2 || line[0] != b'\\' { 0 } else { line[1] } {
        b'T' => State { place: same_bytes(&line[2..2 + find(&line[2..], b'|')], b"DATEDPASSTIME") as u8, ..s },
        b'L' if s.place == 1 => match read_labels(s.shape.form, &line[2..]) {
            Some(shape) => State { place: 2, shape, ..s },
            None => State { refused: [4, s.line as u64, 0], ..s },
        },
        b'G' | b'L' => State { place: 0, ..s },
        _ if s.place == 2 => data_step(s, line, register, sender, staging),
        _ => s,
    }
}

/// The first line of what is left that has more than 4,096 bytes with its CR LF, where its first is line `first`.
fn first_long(rest: &[u8], first: usize) -> Option<usize> {
    let (mut line, mut rest) = (first, rest);
    while !rest.is_empty() {
        let size = find_far(rest, b'\r');
        if 4_094 < size {
            return Some(line);
        }
        line += 1;
        rest = &rest[size + 2..];
    }
    None
}

/// How many rows a message in this form has, or the first three numbers of its refusal, 2 to 6, 15 or 18.
pub fn read_message(d: &[u8], register: &[u8], sender: u8, form: u32, staging: &mut [u8]) -> Result<usize, [u64; 3]> {
    if 1 < form {
        return Err([18, 0, 0]);
    }
    if 65_536 < d.len() {
        return Err([2, 0, 0]);
    }
    syntax::check(d).map_err(|fault| [3, fault as u64, 0])?;
    let shape = Shape { form: form as usize, ..Shape::default() };
    let (mut s, mut rest) = (State { shape, ..State::default() }, d);
    while !rest.is_empty() {
        let size = find_far(rest, b'\r');
        s.line += 1;
        if 4_094 < size {
            return Err([15, s.line as u64, 0]);
        }
        s = line_step(s, &rest[..size], register, sender, staging);
        rest = &rest[size + 2..];
        if s.refused[0] == 4 {
            let long = first_long(rest, s.line + 1);
            return Err(long.map_or(s.refused, |line| [15, line as u64, 0]));
        }
    }
    if s.refused[0] == 0 {
        Ok(s.rows)
    } else {
        Err(s.refused)
    }
}
