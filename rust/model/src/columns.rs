//! 3.1: the wanted tables and their columns.

use crate::types;

/// A column's type. An arrival and a departure are of type T, and 3.4 has more to say of them.
#[derive(Clone, Copy, Debug, PartialEq, Eq)]
pub enum Kind {
    Text,
    Digits(usize),
    Flag,
    Date,
    Stamp,
    Arrival,
    Departure,
    Status,
    StopType,
    Flexible,
    Truth,
    Shown,
}

/// A wanted column.
pub struct Column {
    pub name: &'static str,
    pub kind: Kind,
    pub optional: bool,
}

/// A wanted table.
pub struct Wanted {
    pub table: &'static str,
    pub columns: &'static [Column],
}

const fn wanted(name: &'static str, kind: Kind) -> Column {
    Column { name, kind, optional: false }
}

const fn optional(name: &'static str, kind: Kind) -> Column {
    Column { name, kind, optional: true }
}

/// The table of a message in this form: 0 is the old one, 1 that of turbo 8.5. Other numbers are not known.
pub fn message_table(form: u32) -> Option<&'static Wanted> {
    match form {
        0 => Some(&OLD_MESSAGE),
        1 => Some(&NEW_MESSAGE),
        _ => None,
    }
}

pub const OLD_MESSAGE: Wanted = Wanted {
    table: "DATEDPASSTIME",
    columns: &message_columns(optional("ShowCancelledTrip", Kind::Flag), optional("Monitored", Kind::Flag)),
};

const NEW_MESSAGE: Wanted = Wanted {
    table: "DATEDPASSTIME",
    columns: &message_columns(optional("ShowCancelledJourney", Kind::Shown), optional("Monitored", Kind::Truth)),
};

/// The columns of a message: the same in both forms, but for two.
const fn message_columns(show_cancelled: Column, monitored: Column) -> [Column; 16] {
    [
        wanted("DataOwnerCode", Kind::Text),
        wanted("OperationDate", Kind::Date),
        wanted("LinePlanningNumber", Kind::Text),
        wanted("VehicleJourneyNumber", Kind::Digits(6)),
        wanted("FortifyOrderNumber", Kind::Digits(2)),
        wanted("UserStopCode", Kind::Text),
        wanted("UserStopOrderNumber", Kind::Digits(3)),
        wanted("DestinationCode", Kind::Text),
        wanted("LastUpdateTimeStamp", Kind::Stamp),
        wanted("TripStopStatus", Kind::Status),
        wanted("ExpectedArrivalTime", Kind::Arrival),
        wanted("ExpectedDepartureTime", Kind::Departure),
        wanted("JourneyStopType", Kind::StopType),
        show_cancelled,
        optional("ShowFlexibleTrip", Kind::Flexible),
        monitored,
    ]
}

pub const PLANNING: Wanted = Wanted {
    table: "LOCALSERVICEGROUPPASSTIME",
    columns: &[
        wanted("DataOwnerCode", Kind::Text),
        wanted("LinePlanningNumber", Kind::Text),
        wanted("VehicleJourneyNumber", Kind::Digits(6)),
        wanted("FortifyOrderNumber", Kind::Digits(2)),
        wanted("UserStopCode", Kind::Text),
        wanted("UserStopOrderNumber", Kind::Digits(3)),
        wanted("LocalServiceLevelCode", Kind::Text),
        wanted("DestinationCode", Kind::Text),
        wanted("TargetArrivalTime", Kind::Arrival),
        wanted("TargetDepartureTime", Kind::Departure),
        wanted("JourneyStopType", Kind::StopType),
        optional("ShowFlexibleTrip", Kind::Flexible),
    ],
};

pub const CALENDAR: Wanted = Wanted {
    table: "LOCALSERVICEGROUPVALIDITY",
    columns: &[
        wanted("DataOwnerCode", Kind::Text),
        wanted("LocalServiceLevelCode", Kind::Text),
        wanted("OperationDate", Kind::Date),
    ],
};

/// What is kept of a field.
#[derive(Clone, Copy, Debug, PartialEq, Eq)]
pub enum Cell {
    Text(crate::passage::Text),
    Number(u32),
    NoContent,
}

/// What is kept of a wanted field, or nothing where it is outside its type. `stop_type` is the same line's stop type field, raw; none
/// in a table without one.
pub fn cell(column: &Column, field: &[u8], stop_type: Option<&[u8]>) -> Option<Cell> {
    if field == b"\\0" {
        return may_be_missing(column, stop_type).then_some(Cell::NoContent);
    }
    match column.kind {
        Kind::Text => types::text(field).map(Cell::Text),
        Kind::Digits(most) => types::digits(field, most).map(Cell::Number),
        Kind::Flag => types::flag(field).map(Cell::Number),
        Kind::Date => types::date(field).map(Cell::Number),
        Kind::Stamp => types::stamp(field).map(Cell::Number),
        Kind::Arrival | Kind::Departure => types::time(field).map(Cell::Number),
        Kind::Status => types::status(field).map(Cell::Number),
        Kind::StopType => types::stop_type(field).map(Cell::Number),
        Kind::Flexible => types::flexible(field).map(Cell::Number),
        Kind::Truth => types::truth(field).map(Cell::Number),
        Kind::Shown => types::shown(field).map(Cell::Number),
    }
}

/// 3.4: where `\0` may stand.
fn may_be_missing(column: &Column, stop_type: Option<&[u8]>) -> bool {
    match column.kind {
        Kind::Arrival => stop_type == Some(b"FIRST"),
        Kind::Departure => stop_type == Some(b"LAST"),
        _ => column.optional,
    }
}
