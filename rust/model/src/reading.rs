//! Sections 3 and 5: the rows of a dossier, or refusals 2 to 5 and 15.

use std::collections::BTreeMap;

use crate::answer::Refusal;
use crate::columns::{cell, Cell, Wanted};
use crate::form::{lines, Line, Mark};
use crate::layout::{DOSSIER_BYTES, LINE_BYTES};
use crate::passage::Text;

/// What a data line of a wanted table gives: its cells by the names of their columns. An optional column that is absent has none.
pub struct Read {
    pub line: usize,
    /// Where the line's last byte stands in the dossier, its LF.
    pub last: usize,
    cells: BTreeMap<&'static str, Cell>,
}

impl Read {
    /// The text in a column that is not optional.
    pub fn text(&self, name: &str) -> Text {
        match self.cells.get(name) {
            Some(Cell::Text(text)) => *text,
            _ => unreachable!("a wanted text is always there"),
        }
    }

    /// The number in a column that may have no content.
    pub fn number_if_any(&self, name: &str) -> Option<u32> {
        match self.cells.get(name) {
            Some(Cell::Number(number)) => Some(*number),
            _ => None,
        }
    }

    /// The number in a column that always has one.
    pub fn number(&self, name: &str) -> u32 {
        self.number_if_any(name).expect("a wanted number is always there")
    }
}

/// A table of a dossier: its label line and its data lines.
struct Table<'a> {
    label: &'a Line<'a>,
    data: &'a [Line<'a>],
}

/// Refusals 2, 3, 15, 4 and 5 (5.1 to 5.3), each looked for over the whole dossier before the next (5.5); else the rows in order.
pub fn read(dossier: &[u8], wanted: &Wanted) -> Result<Vec<Read>, Refusal> {
    if dossier.len() > DOSSIER_BYTES {
        return Err(Refusal::TooLong);
    }
    let (lines, fault) = lines(dossier);
    if let Some(offset) = fault {
        return Err(Refusal::Syntax { offset });
    }
    if let Some(line) = first_long(&lines) {
        return Err(Refusal::LineLong { line });
    }
    let tables = wanted_tables(&lines, wanted);
    for table in &tables {
        check_form(table, wanted)?;
    }
    let mut rows = Vec::new();
    for table in &tables {
        for line in table.data {
            rows.push(read_line(table.label, line, wanted)?);
        }
    }
    Ok(rows)
}

/// 7.6: the rows before the first line at fault, by 3, 15, 4 or 5, of what has come of a dossier. A line that has not ended gives none.
pub fn read_before_fault(dossier: &[u8], wanted: &Wanted) -> Vec<Read> {
    let (mut lines, _) = lines(dossier);
    if let Some(line) = first_long(&lines) {
        lines.truncate(line - 1);
    }
    let at_fault = wanted_tables(&lines, wanted).iter().find_map(|table| match check_form(table, wanted) {
        Err(Refusal::Form { line }) => Some(line),
        _ => None,
    });
    if let Some(line) = at_fault {
        lines.truncate(line - 1);
    }
    let tables = wanted_tables(&lines, wanted);
    let data = tables.iter().flat_map(|table| table.data.iter().map(|line| read_line(table.label, line, wanted)));
    data.map_while(Result::ok).collect()
}

/// 1.8, 5.2: the first line of more than 4,096 bytes with its CR LF, whatever it is.
fn first_long(lines: &[Line]) -> Option<usize> {
    lines.iter().find(|line| line.bytes.len() > LINE_BYTES).map(|line| line.number)
}

/// 3.1, 1.7: the tables whose raw name is the wanted one; each has its label line next and then data lines.
fn wanted_tables<'a>(lines: &'a [Line<'a>], wanted: &Wanted) -> Vec<Table<'a>> {
    let mut tables = Vec::new();
    for (place, line) in lines.iter().enumerate() {
        if line.mark == Mark::Table && line.fields[0] == wanted.table.as_bytes() {
            // Of a dossier that has not come whole, the label line may be missing yet.
            if let [label, behind @ ..] = &lines[place + 1..] {
                let data = behind.iter().take_while(|line| line.mark == Mark::Data).count();
                tables.push(Table { label, data: &behind[..data] });
            }
        }
    }
    tables
}

/// 5.2, refusal 4: a wanted name twice, or missing and not optional, or a number of fields unlike the label line's.
fn check_form(table: &Table, wanted: &Wanted) -> Result<(), Refusal> {
    for column in wanted.columns {
        let found = table.label.fields.iter().filter(|name| **name == column.name.as_bytes()).count();
        if found > 1 || found == 0 && !column.optional {
            return Err(Refusal::Form { line: table.label.number });
        }
    }
    match table.data.iter().find(|line| line.fields.len() != table.label.fields.len()) {
        Some(line) => Err(Refusal::Form { line: line.number }),
        None => Ok(()),
    }
}

/// 3.3: the row of a line; or 5.3, refusal 5, at the first wanted field in the line's order that is outside its type.
fn read_line(label: &Line, line: &Line, wanted: &Wanted) -> Result<Read, Refusal> {
    let stop_type = label.fields.iter().position(|name| *name == b"JourneyStopType").map(|place| line.fields[place]);
    let mut cells = BTreeMap::new();
    for (place, name) in label.fields.iter().enumerate() {
        if let Some(column) = wanted.columns.iter().find(|column| column.name.as_bytes() == *name) {
            let fault = Refusal::Field { line: line.number, column: place + 1 };
            cells.insert(column.name, cell(column, line.fields[place], stop_type).ok_or(fault)?);
        }
    }
    Ok(Read { line: line.number, last: line.bytes.end - 1, cells })
}
