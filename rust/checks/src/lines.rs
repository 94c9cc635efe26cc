//! Dossiers line by line, each line its fields by the names of their columns.

use crate::worlds::columns::SHOW_CANCELLED;
use crate::worlds::damage::unwanted_table;
use crate::worlds::passage::padded;

/// A data line: names and raw fields.
#[derive(Clone)]
pub struct Line(Vec<(&'static str, Vec<u8>)>);

impl Line {
    fn of(fields: &[(&'static str, &str)]) -> Line {
        Line(fields.iter().map(|(name, field)| (*name, field.as_bytes().to_vec())).collect())
    }

    /// A line of a message in the old form, with every wanted column.
    pub fn update() -> Line {
        Line::update_in(0)
    }

    /// The same in this form.
    pub fn update_in(form: u32) -> Line {
        Line::of(&[
            ("DataOwnerCode", "CXX"),
            ("OperationDate", "2016-03-01"),
            ("LinePlanningNumber", "A031"),
            ("VehicleJourneyNumber", "1"),
            ("FortifyOrderNumber", "0"),
            ("UserStopCode", "S1"),
            ("UserStopOrderNumber", "1"),
            ("DestinationCode", "CIOS"),
            ("LastUpdateTimeStamp", "2016-03-01T15:15:30+01:00"),
            ("TripStopStatus", "DRIVING"),
            ("ExpectedArrivalTime", "10:00:00"),
            ("ExpectedDepartureTime", "10:00:30"),
            ("JourneyStopType", "INTERMEDIATE"),
            (SHOW_CANCELLED[form as usize], "\\0"),
            ("ShowFlexibleTrip", "\\0"),
            ("Monitored", "\\0"),
        ])
    }

    /// A line of a planning, with every wanted column.
    pub fn pass_time() -> Line {
        Line::of(&[
            ("DataOwnerCode", "CXX"),
            ("LinePlanningNumber", "A031"),
            ("VehicleJourneyNumber", "1"),
            ("FortifyOrderNumber", "0"),
            ("UserStopCode", "S1"),
            ("UserStopOrderNumber", "1"),
            ("LocalServiceLevelCode", "w"),
            ("DestinationCode", "CIOS"),
            ("TargetArrivalTime", "10:00:00"),
            ("TargetDepartureTime", "10:00:30"),
            ("JourneyStopType", "INTERMEDIATE"),
            ("ShowFlexibleTrip", "\\0"),
        ])
    }

    /// A line of a calendar.
    pub fn validity() -> Line {
        Line::of(&[("DataOwnerCode", "CXX"), ("LocalServiceLevelCode", "w"), ("OperationDate", "2016-03-01")])
    }

    /// The same line with another field in a column; a column that it lacks comes last.
    pub fn with(mut self, name: &'static str, field: impl AsRef<[u8]>) -> Line {
        let field = field.as_ref().to_vec();
        match self.0.iter_mut().find(|(other, _)| *other == name) {
            Some(place) => place.1 = field,
            None => self.0.push((name, field)),
        }
        self
    }

    /// The same line without a column.
    pub fn without(mut self, name: &str) -> Line {
        self.0.retain(|(other, _)| *other != name);
        self
    }

    /// The line with the shortest fields that its types allow, so that a dossier holds the most.
    pub fn short(self) -> Line {
        let bare = SHOW_CANCELLED.iter().fold(self, |line, name| line.without(name));
        let bare = bare.without("ShowFlexibleTrip").without("Monitored");
        let fields = bare.0.into_iter().map(|(name, field)| match name {
            "DataOwnerCode" | "LinePlanningNumber" | "UserStopCode" | "DestinationCode" => {
                (name, name.as_bytes()[..1].to_vec())
            }
            "ExpectedArrivalTime" | "TargetArrivalTime" => (name, b"\\0".to_vec()),
            "JourneyStopType" => (name, b"FIRST".to_vec()),
            _ => (name, field),
        });
        Line(fields.collect())
    }

    pub fn names(&self) -> Vec<&'static str> {
        self.0.iter().map(|(name, _)| *name).collect()
    }

    pub fn fields(&self) -> Vec<Vec<u8>> {
        self.0.iter().map(|(_, field)| field.clone()).collect()
    }

    /// From 1, where the column stands.
    pub fn column(&self, name: &str) -> u64 {
        1 + self.0.iter().position(|(other, _)| *other == name).expect("a column of the line") as u64
    }
}

/// A dossier with one table: its lines have the columns of the first.
fn dossier(table: &str, model: Line, lines: &[Line]) -> Vec<u8> {
    let names = lines.first().unwrap_or(&model).names().join("|");
    let mut bytes = format!("\\G\r\n\\T{table}\r\n\\L{names}\r\n").into_bytes();
    for line in lines {
        bytes.extend(line.fields().join(&b'|'));
        bytes.extend(b"\r\n");
    }
    bytes
}

pub fn message(lines: &[Line]) -> Vec<u8> {
    dossier("DATEDPASSTIME", Line::update(), lines)
}

pub fn planning(lines: &[Line]) -> Vec<u8> {
    dossier("LOCALSERVICEGROUPPASSTIME", Line::pass_time(), lines)
}

pub fn calendar(lines: &[Line]) -> Vec<u8> {
    dossier("LOCALSERVICEGROUPVALIDITY", Line::validity(), lines)
}

/// The same dossier made as long as this, by a table of no interest behind its group line.
pub fn widened(mut dossier: Vec<u8>, size: usize) -> Vec<u8> {
    let behind = 1 + dossier.iter().position(|&byte| byte == b'\n').expect("a group line");
    let more = size - dossier.len();
    dossier.splice(behind..behind, unwanted_table(more, b'x'));
    assert_eq!(dossier.len(), size);
    dossier
}

/// The same dossier with its group line widened to this size, its CR LF counted.
pub fn with_group_line(mut dossier: Vec<u8>, size: usize) -> Vec<u8> {
    let end = dossier.iter().position(|&byte| byte == b'\r').expect("a group line");
    dossier.splice(end..end, std::iter::repeat_n(b'x', size - end - 2));
    dossier
}

/// A register's pair.
pub fn pair(sender: u8, owner: &[u8]) -> Vec<u8> {
    let mut pair = vec![sender];
    pair.extend(padded(owner));
    pair
}

/// YYYYMMDD as a D field.
pub fn date(number: u32) -> String {
    format!("{:04}-{:02}-{:02}", number / 10_000, number / 100 % 100, number % 100)
}

/// Seconds as a T field.
pub fn time(seconds: u32) -> String {
    format!("{:02}:{:02}:{:02}", seconds / 3_600, seconds / 60 % 60, seconds % 60)
}
