//! Dossiers as tables of raw fields, and their bytes.

use super::columns::{Form, Kind, Wanted, CALENDAR, MESSAGE, PLANNING};
use super::fields::{self, Field, FLEXIBLES, NOTHING, SHOWN, STATUSES, STOP_TYPES};
use super::passage::{Passage, Text, KEPT};
use super::random::Random;

pub struct Column {
    pub name: Field,
    /// The type, if the column is wanted.
    pub kind: Option<Kind>,
}

pub struct Table {
    /// The whole line after its mark: name and what follows.
    pub title: Field,
    pub columns: Vec<Column>,
    pub rows: Vec<Vec<Field>>,
}

pub struct Dossier {
    pub group: Field,
    pub tables: Vec<Table>,
}

impl Dossier {
    pub fn bytes(&self) -> Vec<u8> {
        let mut bytes = Vec::with_capacity(1_024);
        write_line(&mut bytes, br"\G", std::iter::once(&self.group));
        for table in &self.tables {
            write_line(&mut bytes, br"\T", std::iter::once(&table.title));
            write_line(&mut bytes, br"\L", table.columns.iter().map(|column| &column.name));
            for row in &table.rows {
                write_line(&mut bytes, b"", row.iter());
            }
        }
        bytes
    }
}

fn write_line<'a>(bytes: &mut Vec<u8>, mark: &[u8], fields: impl Iterator<Item = &'a Field>) {
    bytes.extend_from_slice(mark);
    for (index, field) in fields.enumerate() {
        if index > 0 {
            bytes.push(b'|');
        }
        bytes.extend_from_slice(field);
    }
    bytes.extend_from_slice(b"\r\n");
}

/// How a wanted table's columns are laid out.
#[derive(Clone, Copy, PartialEq, Eq)]
pub enum Layout {
    /// The wanted columns in document 01's order.
    Wanted,
    /// The wanted columns in any order, optional ones there or not.
    Permuted,
    /// As permuted, with unwanted columns between.
    Mixed,
    /// The whole layout of 000.
    Full,
}

impl Layout {
    pub fn any(random: &mut Random) -> Layout {
        *random.pick(&[
            Layout::Wanted,
            Layout::Wanted,
            Layout::Permuted,
            Layout::Permuted,
            Layout::Mixed,
            Layout::Mixed,
            Layout::Full,
        ])
    }
}

/// Names that are no wanted column's, however like one they look.
const UNWANTED_NAMES: [&str; 12] = [
    "",
    "SideCode",
    "dataownercode",
    "DataOwnerCode ",
    " DataOwnerCode",
    r"DataOwner\iCode",
    r"\0",
    "DataOwnerCod",
    "DataOwnerCodes",
    "OPERATIONDATE",
    "LineDirection",
    "Ünwanted",
];

/// More columns than these are many.
const MANY: usize = 150;

const UNWANTED_FIELDS: [&str; 15] = [
    "", r"\0", "1", "0", "true", "message", "UNKNOWN", "ALGEMEEN", "24:13:00", r"a\pb\i", r"\r\n", "-", "ü", "ffffff",
    "NONE",
];

/// The columns of a wanted table in some layout.
pub fn columns(form: &Form, layout: Layout, random: &mut Random) -> Vec<Column> {
    if layout == Layout::Full {
        let mut columns = form.full.iter().map(|name| named(form, name)).collect();
        add_others(&mut columns, form, random);
        return columns;
    }
    let all = layout == Layout::Wanted && random.one_in(2);
    let mut columns: Vec<Column> =
        form.wanted.iter().filter(|wanted| !wanted.optional || all || random.one_in(2)).map(wanted_column).collect();
    if layout != Layout::Wanted {
        random.shuffle(&mut columns);
    }
    if layout == Layout::Mixed {
        // Now and then so many that a column's place no longer fits in a byte, or has four digits.
        let unwanted = match random.below(60) {
            0 => random.range(200, 400),
            1 => random.range(1_000, 2_000),
            _ => random.range(1, 8),
        };
        // So many have short names: else the label line would be too long for a line.
        let names: &[&str] = if unwanted > MANY && !random.one_in(8) { &["", "", "x"] } else { &UNWANTED_NAMES };
        for _ in 0..unwanted {
            let name = random.pick(names).as_bytes().to_vec();
            columns.insert(random.below(columns.len() + 1), Column { name, kind: None });
        }
        add_others(&mut columns, form, random);
    }
    columns
}

/// At times columns that only another form wants: here they are of no interest, and may recur.
fn add_others(columns: &mut Vec<Column>, form: &Form, random: &mut Random) {
    if !form.others.is_empty() && random.one_in(2) {
        for _ in 0..*random.pick(&[1, 1, 2, 3]) {
            let name = random.pick(form.others).as_bytes().to_vec();
            columns.insert(random.below(columns.len() + 1), Column { name, kind: None });
        }
    }
}

fn wanted_column(wanted: &Wanted) -> Column {
    Column { name: wanted.name.as_bytes().to_vec(), kind: Some(wanted.kind) }
}

fn named(form: &Form, name: &str) -> Column {
    let kind = form.wanted.iter().find(|wanted| wanted.name == name).map(|wanted| wanted.kind);
    Column { name: name.as_bytes().to_vec(), kind }
}

/// One line's contents: a passage, and the service level where the table has one.
pub struct Line<'a> {
    pub passage: &'a Passage,
    pub level: &'a Text,
}

/// A wanted table with these lines.
pub fn table(form: &Form, layout: Layout, lines: &[Line], random: &mut Random) -> Table {
    let columns = columns(form, layout, random);
    // Among many columns those of no interest are short, too, so that the line is not too long.
    let short = columns.len() > MANY && !random.one_in(8);
    let rows = lines.iter().map(|line| columns.iter().map(|column| field(column, line, short, random)).collect());
    let rows = rows.collect();
    Table { title: title(form.name, random), columns, rows }
}

/// A table's name, and at times what 000 says of the rest of the line.
pub fn title(name: &str, random: &mut Random) -> Field {
    let rest = *random.pick(&["", "|", r"|\0|start object", r"|x\p\i\r\n|"]);
    format!("{name}{rest}").into_bytes()
}

fn field(column: &Column, line: &Line, short: bool, random: &mut Random) -> Field {
    let Some(kind) = column.kind else {
        let fields: &[&str] = if short { &["", "", "1"] } else { &UNWANTED_FIELDS };
        return random.pick(fields).as_bytes().to_vec();
    };
    let passage = line.passage;
    let key = &passage.key;
    match column.name.as_slice() {
        b"DataOwnerCode" => fields::text(&key.owner),
        b"OperationDate" => fields::date(key.date),
        b"LinePlanningNumber" => fields::text(&key.line),
        b"VehicleJourneyNumber" => fields::number(key.journey, 6, random),
        b"FortifyOrderNumber" => fields::number(key.fortify.into(), 2, random),
        b"UserStopCode" => fields::text(&key.stop),
        b"UserStopOrderNumber" => fields::number(key.order.into(), 3, random),
        b"LocalServiceLevelCode" => fields::text(line.level),
        b"DestinationCode" => fields::text(&passage.destination),
        b"LastUpdateTimeStamp" => fields::stamp(passage.stamp, random),
        b"TripStopStatus" => fields::word(&STATUSES, passage.status),
        b"ExpectedArrivalTime" | b"TargetArrivalTime" => fields::time(passage.arrival),
        b"ExpectedDepartureTime" | b"TargetDepartureTime" => fields::time(passage.departure),
        b"JourneyStopType" => fields::word(&STOP_TYPES, passage.stop_type),
        b"ShowCancelledTrip" | b"ShowCancelledJourney" => flag(kind, passage.show_cancelled),
        b"Monitored" => flag(kind, passage.monitored),
        _ => flexible(passage.flexible),
    }
}

fn flag(kind: Kind, content: u8) -> Field {
    match kind {
        _ if content == KEPT => NOTHING.to_vec(),
        Kind::Flag => vec![b'0' + content],
        _ => fields::word(&SHOWN, content),
    }
}

/// A plan passage without the content is kept as 0, an update as 255; neither has a word.
fn flexible(content: u8) -> Field {
    match content {
        1..=3 => fields::word(&FLEXIBLES, content - 1),
        _ => NOTHING.to_vec(),
    }
}

/// A group line as in 000, or a short one.
pub fn group(random: &mut Random) -> Field {
    random
        .pick(&[
            "",
            "x",
            r"\0|\p\i",
            "KV8turbo_passtimes|KV8turbo_passtimes|openOV||||UTF-8|0.1|2016-03-01T00:12:05+01:00|\u{feff}",
        ])
        .as_bytes()
        .to_vec()
}

/// A dossier that holds these lines, in one wanted table or several, with unwanted ones between.
pub fn dossier(form: &Form, lines: &[Line], random: &mut Random) -> Dossier {
    let mut tables = Vec::new();
    if random.one_in(400) {
        tables.push(many_lines(random));
    }
    let mut rest = lines;
    while !rest.is_empty() || tables.is_empty() && random.one_in(2) {
        if random.one_in(8) {
            tables.push(unwanted(form, random));
        }
        let taken = if random.one_in(5) { random.below(rest.len() + 1) } else { rest.len() };
        let layout = if taken > 40 { Layout::Wanted } else { Layout::any(random) };
        tables.push(table(form, layout, &rest[..taken], random));
        rest = &rest[taken..];
    }
    if random.one_in(8) {
        tables.push(unwanted(form, random));
    }
    Dossier { group: group(random), tables }
}

/// An unwanted table of empty lines, so many that later line numbers are large.
fn many_lines(random: &mut Random) -> Table {
    let count = *random.pick(&[250, 300, 5_000, 30_000]);
    let columns = vec![Column { name: Vec::new(), kind: None }];
    Table { title: b"LINE".to_vec(), columns, rows: vec![vec![Vec::new()]; count] }
}

/// A table that this dossier does not want (another dossier may), with lines that a wanted one
/// could not have.
fn unwanted(form: &Form, random: &mut Random) -> Table {
    let other = *random.pick(&[MESSAGE.name, PLANNING.name, CALENDAR.name]);
    let like = *random.pick(&["LINE", "", "datedpasstime", "DATEDPASSTIMES", "DATEDPASSTIM", r"\0", r"LINE\i"]);
    let name = if other != form.name && random.one_in(2) { other } else { like };
    let columns = (0..random.range(1, 4))
        .map(|_| Column { name: random.pick(&["DataOwnerCode", "X", ""]).as_bytes().to_vec(), kind: None })
        .collect();
    let rows = (0..random.below(4))
        .map(|_| (0..random.range(1, 5)).map(|_| random.pick(&UNWANTED_FIELDS).as_bytes().to_vec()).collect())
        .collect();
    Table { title: title(name, random), columns, rows }
}
