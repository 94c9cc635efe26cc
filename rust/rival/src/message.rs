//! Message: rows of a dossier go into the book and change the table.

use super::answer::{form, Refusal};
use super::book::{self, Parts};
use super::passage::*;
use super::rows::{self, Fields, Wanted};
use super::table;

/// Sender and owner.
const PAIR: usize = 1 + TEXT;

/// Wanted columns of a message.
pub const COLUMNS: usize = 16;

/// The forms of a message: the old one, and that of turbo 8.5. Each has code of its own for the two columns in which they differ, so that
/// reading asks for the form once and not at every row.
pub const OLD: bool = false;
pub const NEW: bool = true;

/// Whether it is the form of turbo 8.5; none where it is not known.
pub fn form_of(form: u32) -> Option<bool> {
    match form {
        0 => Some(OLD),
        1 => Some(NEW),
        _ => None,
    }
}

const fn columns(show_cancelled: &'static [u8]) -> [&'static [u8]; COLUMNS] {
    [
        b"DataOwnerCode",
        b"OperationDate",
        b"LinePlanningNumber",
        b"VehicleJourneyNumber",
        b"FortifyOrderNumber",
        b"UserStopCode",
        b"UserStopOrderNumber",
        b"DestinationCode",
        b"LastUpdateTimeStamp",
        b"TripStopStatus",
        b"ExpectedArrivalTime",
        b"ExpectedDepartureTime",
        b"JourneyStopType",
        show_cancelled,
        b"ShowFlexibleTrip",
        b"Monitored",
    ]
}

const fn in_columns(columns: &'static [&'static [u8]]) -> Wanted {
    Wanted { table: b"DATEDPASSTIME", columns, optional: 0b1110_0000_0000_0000 }
}

/// By form.
static COLUMN_NAMES: [[&[u8]; COLUMNS]; 2] = [columns(b"ShowCancelledTrip"), columns(b"ShowCancelledJourney")];
static WANTED: [Wanted; 2] = [in_columns(&COLUMN_NAMES[0]), in_columns(&COLUMN_NAMES[1])];

#[inline(always)]
pub fn wanted<const FORM: bool>() -> &'static Wanted {
    &WANTED[FORM as usize]
}

#[allow(clippy::too_many_arguments)]
pub fn message(
    dossier: &[u8],
    sender: u8,
    form: u32,
    register: &[u8],
    book: &mut [u8],
    table: &mut [u8],
    used: u64,
    rows: u64,
) -> [u64; 6] {
    match accept(dossier, sender, form, register, book, table, used, rows) {
        Ok((number, used, rows)) => [0, number as u64, 0, 0, used as u64, rows as u64],
        Err(refusal) => refusal.answer(0, used, rows),
    }
}

#[allow(clippy::too_many_arguments)]
fn accept(
    dossier: &[u8],
    sender: u8,
    form: u32,
    register: &[u8],
    lent_book: &mut [u8],
    lent_table: &mut [u8],
    used: u64,
    rows: u64,
) -> Result<(u32, usize, usize), Refusal> {
    let (parts, rows) = sound(register, lent_book, lent_table, used, rows).ok_or(Refusal::bare(1))?;
    let owners = owners(sender, register);
    let updates = match form_of(form) {
        Some(OLD) => read::<OLD>(dossier, &owners)?,
        Some(NEW) => read::<NEW>(dossier, &owners)?,
        None => return Err(Refusal::bare(18)),
    };
    take(&updates, sender, lent_book, lent_table, &parts, rows)
}

/// Register, book and table can be worked with: the book's parts and the table's rows.
pub fn sound(register: &[u8], book: &[u8], table: &[u8], used: u64, rows: u64) -> Option<(Parts, usize)> {
    if !register.len().is_multiple_of(PAIR) || register.len() > 64 * PAIR {
        return None;
    }
    Some((book::sound(book, used)?, table::sound(table, rows)?))
}

/// Takes the updates into book and table, where there is room: refusals 7 and 8.
pub fn take(
    updates: &[Body],
    sender: u8,
    lent_book: &mut [u8],
    lent_table: &mut [u8],
    parts: &Parts,
    rows: usize,
) -> Result<(u32, usize, usize), Refusal> {
    if updates.is_empty() {
        return Ok((0, parts.used, rows));
    }
    let end = parts.used + updates.len() * book::UPDATE;
    if end > book::room(lent_book) {
        return Err(Refusal::bare(7));
    }
    let steps = locate(lent_table, rows, updates);
    let total = rows + steps.new.len();
    if total > table::room(lent_table) {
        return Err(Refusal::bare(8));
    }
    for &(place, update) in &steps.held {
        apply(table::row_mut(lent_table, place as usize), &updates[update as usize]);
    }
    table::insert(lent_table, rows, &steps.new);
    let number = parts.last + 1;
    write(&mut lent_book[parts.used..end], number, sender, updates);
    Ok((number, end, total))
}

/// Writes the entries into the book's unused end.
fn write(free: &mut [u8], number: u32, sender: u8, updates: &[Body]) {
    for (entry, body) in free.chunks_exact_mut(book::UPDATE).zip(updates) {
        entry[0] = book::KIND_STANDING;
        entry[1..5].copy_from_slice(&number.to_be_bytes());
        entry[5] = sender;
        entry[6..].copy_from_slice(body);
    }
}

/// The owners that a sender is registered for. Sender 0 has none.
fn owners(sender: u8, register: &[u8]) -> Vec<[u8; TEXT]> {
    let of_sender = |pair: &&[u8]| sender != 0 && pair[0] == sender;
    let owner = |pair: &[u8]| pair[1..].try_into().unwrap();
    register.chunks_exact(PAIR).filter(of_sender).map(owner).collect()
}

/// The sender is registered for the owner. Pairs that are not whole do not count.
pub fn grants(register: &[u8], sender: u8, owner: &[u8; TEXT]) -> bool {
    sender != 0 && register.chunks_exact(PAIR).any(|pair| pair[0] == sender && pair[1..] == *owner)
}

/// Reads all rows; refusals 2 to 6, and 15.
fn read<const FORM: bool>(dossier: &[u8], owners: &[[u8; TEXT]]) -> Result<Vec<Body>, Refusal> {
    let index = form(dossier)?;
    // A row takes a line, and more than 64 bytes.
    let most = index.lines.len().min(dossier.len() / 64);
    let mut updates: Vec<Body> = Vec::with_capacity(most);
    let mut stranger = None;
    let mut known: Option<[u8; TEXT]> = None;
    rows::read(dossier, &index, wanted::<FORM>(), |fields, line| {
        let mut body = [0; BODY];
        let faults = update::<FORM>(fields, &mut body);
        let owner = body[..TEXT].try_into().unwrap();
        if faults == 0 && stranger.is_none() && known != Some(owner) {
            if owners.contains(&owner) {
                known = Some(owner);
            } else {
                stranger = Some(line);
            }
        }
        updates.push(body);
        faults
    })?;
    match stranger {
        Some(line) => Err(Refusal(6, line, 0)),
        None => Ok(updates),
    }
}

/// Fills a body from one row; the answer has a bit for each faulty column.
#[inline(always)]
pub fn update<const FORM: bool>(fields: &Fields, body: &mut Body) -> u32 {
    let mut faults = 0;
    let mut text = |column: usize, at: usize| match fields.field(column).text() {
        Some(text) => body[at..at + TEXT].copy_from_slice(&text),
        None => faults |= 1 << column,
    };
    text(0, OWNER);
    text(2, LINE);
    text(5, STOP);
    text(7, DESTINATION);
    let mut keep = |column: usize, value: Option<u32>| {
        faults |= (value.is_none() as u32) << column;
        value.unwrap_or(0)
    };
    let date = keep(1, fields.field(1).date());
    let journey = keep(3, fields.field(3).number(6));
    let fortify = keep(4, fields.field(4).number(2));
    let order = keep(6, fields.field(6).number(3));
    let stamp = keep(8, fields.field(8).stamp());
    let status = keep(9, fields.field(9).status().map(u32::from));
    let stop_type = fields.field(12).stop_type();
    let arrival = keep(10, fields.field(10).time_or_nothing(stop_type == Some(FIRST)));
    let departure = keep(11, fields.field(11).time_or_nothing(stop_type == Some(LAST)));
    let stop_type = keep(12, stop_type.map(u32::from));
    let mut optional =
        |column: usize, value: Option<Option<u8>>| keep(column, value.unwrap_or(Some(ABSENT)).map(u32::from)) as u8;
    let show = optional(13, fields.given(13).map(|f| if FORM == NEW { f.shown() } else { f.flag() }));
    let flexible = optional(14, fields.given(14).map(|f| f.flexible()));
    let monitored = optional(15, fields.given(15).map(|f| if FORM == NEW { f.truth() } else { f.flag() }));

    body[DATE..DATE + 4].copy_from_slice(&date.to_be_bytes());
    body[JOURNEY..JOURNEY + 4].copy_from_slice(&journey.to_be_bytes());
    body[FORTIFY] = fortify as u8;
    body[ORDER..ORDER + 2].copy_from_slice(&(order as u16).to_be_bytes());
    body[STAMP..STAMP + 4].copy_from_slice(&stamp.to_be_bytes());
    body[STATUS] = status as u8;
    put3(body, ARRIVAL, arrival);
    put3(body, DEPARTURE, departure);
    body[STOP_TYPE] = stop_type as u8;
    body[SHOW_CANCELLED] = show;
    body[FLEXIBLE] = flexible;
    body[MONITORED] = monitored;
    faults
}

/// What a message does to the table.
struct Steps {
    /// Place in the table and number of the update, in the message's order.
    held: Vec<(u32, u32)>,
    /// Rows to insert, finished, by key.
    new: Vec<(usize, Row)>,
}

fn locate(lent: &[u8], rows: usize, updates: &[Body]) -> Steps {
    let mut held = Vec::with_capacity(updates.len());
    let mut missing: Vec<(Key, u32, u32)> = Vec::new();
    let mut places = table::sorted(lent, rows);
    for (i, update) in updates.iter().enumerate() {
        let key = Key::of(update);
        match places.find(&key) {
            Ok(place) => held.push((place as u32, i as u32)),
            Err(place) => missing.push((key, i as u32, place as u32)),
        }
    }
    missing.sort_unstable();
    let mut new: Vec<(usize, Row)> = Vec::new();
    let mut last = None;
    for (key, i, place) in missing {
        let update = &updates[i as usize];
        if last != Some(key) {
            new.push((place as usize, unplanned(update)));
            last = Some(key);
        }
        if let Some((_, row)) = new.last_mut() {
            apply(row, update);
        }
    }
    Steps { held, new }
}
