use std::fmt;

use layout::*;

use crate::{Date, Moment, Time};

/// The rows of a sound table, by key.
#[derive(Clone, Copy)]
pub struct Table<'day> {
    rows: &'day [u8],
}

/// A row: a passage of a vehicle at a stop, as it is held. A view of the table's own bytes.
#[derive(Clone, Copy, PartialEq, Eq)]
pub struct Row<'day> {
    bytes: &'day [u8; ROW],
}

macro_rules! codes {
    ($(#[$doc:meta])* $name:ident from $words:ident: $($(#[$of:meta])* $variant:ident = $code:expr,)*) => {
        $(#[$doc])*
        #[derive(Clone, Copy, Debug, PartialEq, Eq, Hash)]
        pub enum $name {
            $($(#[$of])* $variant,)*
        }

        impl $name {
            fn of(code: u8) -> $name {
                match code {
                    $(code if code == $code => $name::$variant,)*
                    _ => unreachable!("a sound table has no such code"),
                }
            }

            /// The byte that stands for it.
            pub const fn code(self) -> u8 {
                match self {
                    $($name::$variant => $code,)*
                }
            }
        }

        /// The word that dossiers have for it.
        impl fmt::Display for $name {
            fn fmt(&self, f: &mut fmt::Formatter) -> fmt::Result {
                f.pad($words[usize::from(self.code())])
            }
        }
    };
}

codes! {
    /// What is known of a passage.
    Status from STATUS_WORDS:
    /// Nothing but the plan.
    Planned = PLANNED,
    /// It does not take place.
    Cancel = CANCEL,
    /// The vehicle is not heard of.
    Unknown = UNKNOWN,
    /// The vehicle is on its way.
    Driving = DRIVING,
    /// The vehicle is at the stop.
    Arrived = ARRIVED,
    /// The vehicle has left.
    Passed = PASSED,
}

codes! {
    /// Where in its journey a passage stands.
    StopType from STOP_TYPE_WORDS:
    /// The journey begins here: it may have no arrival.
    First = FIRST,
    /// The journey goes on.
    Intermediate = INTERMEDIATE,
    /// The journey ends here: it may have no departure, and no board shows it.
    Last = LAST,
}

codes! {
    /// Whether a passage is shown when it is cancelled.
    ShowCancelled from CANCELLED_WORDS:
    /// It is not.
    False = CANCELLED_FALSE,
    /// It is.
    True = CANCELLED_TRUE,
    /// It is not, but a message is sent beside it.
    Message = CANCELLED_MESSAGE,
}

codes! {
    /// Whether a flexible trip is shown.
    Flexible from FLEXIBLE_WORDS:
    /// Not said: it is.
    NotSaid = FLEXIBLE_NOT_SAID,
    /// Always.
    True = FLEXIBLE_TRUE,
    /// Never.
    False = FLEXIBLE_FALSE,
    /// Where it is monitored.
    Realtime = FLEXIBLE_REALTIME,
}

impl<'day> Table<'day> {
    /// Of whole rows of a table that a call has found sound.
    pub(crate) fn sound(rows: &'day [u8]) -> Table<'day> {
        Table { rows }
    }

    /// How many rows there are.
    pub fn len(&self) -> usize {
        self.rows.len() / ROW
    }

    /// Whether there are none.
    pub fn is_empty(&self) -> bool {
        self.rows.is_empty()
    }

    /// The row at a place, from 0.
    pub fn row(&self, place: usize) -> Option<Row<'day>> {
        self.rows.as_chunks::<ROW>().0.get(place).map(|bytes| Row { bytes })
    }

    /// The rows by key.
    pub fn iter(&self) -> impl ExactSizeIterator<Item = Row<'day>> + 'day {
        self.rows.as_chunks::<ROW>().0.iter().map(|bytes| Row { bytes })
    }
}

impl<'day> Row<'day> {
    /// The bytes of the row, as [`layout::FIELDS`] says.
    pub fn as_bytes(&self) -> &'day [u8; ROW] {
        self.bytes
    }

    /// The first bytes of the row, by which rows are told apart and ordered.
    pub fn key(&self) -> &'day [u8] {
        &self.bytes[..KEY_WIDE]
    }

    /// Whose passage it is.
    pub fn owner(&self) -> &'day str {
        self.text(OWNER_AT)
    }

    /// The date of the operating day.
    pub fn date(&self) -> Date {
        Date(self.number(DATE_AT, DATE_WIDE))
    }

    /// The line.
    pub fn line(&self) -> &'day str {
        self.text(LINE_AT)
    }

    /// The number of the journey.
    pub fn journey(&self) -> u32 {
        self.number(JOURNEY_AT, JOURNEY_WIDE)
    }

    /// The fortify number: 0, or which additional vehicle of the journey it is.
    pub fn fortify(&self) -> u8 {
        self.bytes[FORTIFY_AT]
    }

    /// The stop.
    pub fn stop(&self) -> &'day str {
        self.text(STOP_AT)
    }

    /// The stop's order number in the journey.
    pub fn order(&self) -> u32 {
        self.number(ORDER_AT, ORDER_WIDE)
    }

    /// Where the vehicle goes.
    pub fn destination(&self) -> &'day str {
        self.text(DESTINATION_AT)
    }

    /// When the last update was made, in seconds since 1970; none where nothing has been heard.
    pub fn timestamp(&self) -> Option<u32> {
        self.heard().then(|| self.number(TIMESTAMP_AT, TIMESTAMP_WIDE))
    }

    /// What is known of it.
    pub fn status(&self) -> Status {
        Status::of(self.bytes[STATUS_AT])
    }

    /// When the vehicle arrives; at the first stop it may be missing.
    pub fn arrival(&self) -> Option<Time> {
        self.time(ARRIVAL_AT)
    }

    /// When the vehicle leaves; at the last stop it may be missing.
    pub fn departure(&self) -> Option<Time> {
        self.time(DEPARTURE_AT)
    }

    /// When the vehicle leaves, on the clock.
    pub fn departs(&self) -> Option<Moment> {
        self.departure().map(|time| time.on(self.date()))
    }

    /// Where in its journey it stands.
    pub fn stop_type(&self) -> StopType {
        StopType::of(self.bytes[STOP_TYPE_AT])
    }

    /// Whether it is shown when it is cancelled.
    pub fn show_cancelled(&self) -> ShowCancelled {
        ShowCancelled::of(self.bytes[SHOW_CANCELLED_AT])
    }

    /// Whether it is shown as a flexible trip.
    pub fn flexible(&self) -> Flexible {
        Flexible::of(self.bytes[FLEXIBLE_AT])
    }

    /// Whether the vehicle is monitored.
    pub fn monitored(&self) -> bool {
        self.bytes[MONITORED_AT] == 1
    }

    /// Whether a standing message has told of it, and not the plan alone.
    pub fn heard(&self) -> bool {
        self.bytes[HEARD_AT] == 1
    }

    fn text(&self, at: usize) -> &'day str {
        let padded = &self.bytes[at..at + TEXT_WIDE];
        let wide = padded.iter().position(|&byte| byte == 0).unwrap_or(TEXT_WIDE);
        std::str::from_utf8(&padded[..wide]).expect("the texts of a sound table are ASCII")
    }

    fn number(&self, at: usize, wide: usize) -> u32 {
        self.bytes[at..at + wide].iter().fold(0, |number, &byte| number << 8 | u32::from(byte))
    }

    fn time(&self, at: usize) -> Option<Time> {
        let time = self.number(at, TIME_WIDE);
        (time != NO_TIME).then_some(Time(time))
    }
}

impl fmt::Debug for Row<'_> {
    fn fmt(&self, f: &mut fmt::Formatter) -> fmt::Result {
        f.debug_struct("Row")
            .field("owner", &self.owner())
            .field("date", &self.date().0)
            .field("line", &self.line())
            .field("journey", &self.journey())
            .field("fortify", &self.fortify())
            .field("stop", &self.stop())
            .field("order", &self.order())
            .field("destination", &self.destination())
            .field("timestamp", &self.timestamp())
            .field("status", &self.status())
            .field("arrival", &self.arrival())
            .field("departure", &self.departure())
            .field("stop_type", &self.stop_type())
            .field("show_cancelled", &self.show_cancelled())
            .field("flexible", &self.flexible())
            .field("monitored", &self.monitored())
            .field("heard", &self.heard())
            .finish()
    }
}
