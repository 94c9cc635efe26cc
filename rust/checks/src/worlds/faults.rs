//! Faults in a dossier's structure and fields: what refusals 4 and 5 are about, and changes that
//! look like faults and are none.

use super::columns::{Form, SHOW_CANCELLED};
use super::dossier::{Column, Dossier, Table};
use super::fields::{at_edge, NOTHING};
use super::random::Random;

/// Changes one thing in one of the dossier's tables.
pub fn spoil(dossier: &mut Dossier, form: &Form, random: &mut Random) {
    if dossier.tables.is_empty() {
        return;
    }
    let which = random.below(dossier.tables.len());
    let table = &mut dossier.tables[which];
    match random.below(17) {
        0 => name_twice(table, form, random),
        1 => drop_column(table, random),
        2 => rename_column(table, random),
        3 => change_field_count(table, random),
        4 => insert_empty_line(table, random),
        5 => retitle(table, random),
        6 => put_nothing(table, random),
        7 => repeat_line(table, random),
        8 | 9 => alter_field(table, random),
        10 => exchange_names(table),
        _ => field_at_edge(table, random),
    }
}

/// Only fields at the edges of their types.
pub fn spoil_field(dossier: &mut Dossier, random: &mut Random) {
    let which = random.below(dossier.tables.len().max(1));
    if let Some(table) = dossier.tables.get_mut(which) {
        field_at_edge(table, random);
    }
}

/// Gives a wanted name, optional ones too, to one more column; the data lines keep in step.
fn name_twice(table: &mut Table, form: &Form, random: &mut Random) {
    let wanted = random.pick(form.wanted);
    let place = random.below(table.columns.len() + 1);
    let name = wanted.name.as_bytes().to_vec();
    table.columns.insert(place, Column { name, kind: Some(wanted.kind) });
    for row in &mut table.rows {
        row.insert(place.min(row.len()), NOTHING.to_vec());
    }
}

fn drop_column(table: &mut Table, random: &mut Random) {
    if table.columns.len() < 2 {
        return;
    }
    let place = random.below(table.columns.len());
    table.columns.remove(place);
    for row in &mut table.rows {
        if place < row.len() && row.len() > 1 {
            row.remove(place);
        }
    }
}

fn rename_column(table: &mut Table, random: &mut Random) {
    let place = random.below(table.columns.len());
    let name = &mut table.columns[place].name;
    match random.below(4) {
        0 => name.make_ascii_uppercase(),
        1 => name.push(b' '),
        2 => drop(name.pop()),
        _ => *name = b"VehicleJourneyNumber".to_vec(),
    }
}

/// Each form's own name becomes the other's: what was wanted is not, and the other way round.
fn exchange_names(table: &mut Table) {
    for column in &mut table.columns {
        if let Some(place) = SHOW_CANCELLED.iter().position(|name| name.as_bytes() == column.name) {
            column.name = SHOW_CANCELLED[1 - place].as_bytes().to_vec();
        }
    }
}

fn change_field_count(table: &mut Table, random: &mut Random) {
    let Some(row) = any_row(table, random) else { return };
    if row.len() > 1 && random.one_in(2) {
        row.remove(random.below(row.len()));
    } else {
        row.insert(random.below(row.len() + 1), b"1".to_vec());
    }
}

fn insert_empty_line(table: &mut Table, random: &mut Random) {
    table.rows.insert(random.below(table.rows.len() + 1), vec![Vec::new()]);
}

/// Another name makes a wanted table unwanted: its rows are skipped.
fn retitle(table: &mut Table, random: &mut Random) {
    match random.below(3) {
        0 => table.title.insert(0, b' '),
        1 => table.title.make_ascii_lowercase(),
        _ => table.title = b"LINE".to_vec(),
    }
}

fn put_nothing(table: &mut Table, random: &mut Random) {
    let Some(column) = any_wanted(table, random) else { return };
    if let Some(field) = any_row(table, random).and_then(|row| row.get_mut(column)) {
        *field = NOTHING.to_vec();
    }
}

/// The same line twice: two rows of one key.
fn repeat_line(table: &mut Table, random: &mut Random) {
    if let Some(row) = any_row(table, random).map(|row| row.clone()) {
        table.rows.insert(random.below(table.rows.len() + 1), row);
    }
}

/// One byte of a field becomes another, is left out or is added.
fn alter_field(table: &mut Table, random: &mut Random) {
    let Some(column) = any_wanted(table, random) else { return };
    let Some(field) = any_row(table, random).and_then(|row| row.get_mut(column)) else { return };
    let byte = *random.pick(b"019:-T+ aA/~,.;@");
    let place = random.below(field.len() + 1);
    match random.below(3) {
        0 => field.insert(place, byte),
        1 if place < field.len() => drop(field.remove(place)),
        _ if place < field.len() => field[place] = byte,
        _ => field.push(byte),
    }
}

fn field_at_edge(table: &mut Table, random: &mut Random) {
    let Some(column) = any_wanted(table, random) else { return };
    let Some(kind) = table.columns[column].kind else { return };
    if let Some(field) = any_row(table, random).and_then(|row| row.get_mut(column)) {
        *field = at_edge(kind, random);
    }
}

/// The place of a wanted column; in wide tables most are not.
fn any_wanted(table: &Table, random: &mut Random) -> Option<usize> {
    let wanted: Vec<usize> = (0..table.columns.len()).filter(|&place| table.columns[place].kind.is_some()).collect();
    (!wanted.is_empty()).then(|| *random.pick(&wanted))
}

fn any_row<'a>(table: &'a mut Table, random: &mut Random) -> Option<&'a mut Vec<Vec<u8>>> {
    if table.rows.is_empty() {
        return None;
    }
    let which = random.below(table.rows.len());
    Some(&mut table.rows[which])
}
