//! Departure boards from KV7 and KV8 turbo dossiers, by a library each function of which is proved to meet its promise.
//!
//! A [`Day`] is opened with a planning and a calendar, takes messages, whole or in parts ([`Feed`]), in the old form or
//! that of turbo 8.5 ([`Form`]), and gives boards. A
//! call is done whole, or refused with a [`Refusal`] and nothing changed; it takes any bytes, and never panics for what it
//! is given.
//!
//! ```
//! use zhemdurak::{Date, Day, Form, Question, Refusal, Register, Sender, Status, Time};
//!
//! let planning = b"\\Gplanning\r\n\
//!     \\TLOCALSERVICEGROUPPASSTIME\r\n\
//!     \\LDataOwnerCode|LocalServiceLevelCode|LinePlanningNumber|VehicleJourneyNumber|FortifyOrderNumber|\
//!     UserStopCode|UserStopOrderNumber|DestinationCode|TargetArrivalTime|TargetDepartureTime|JourneyStopType\r\n\
//!     CXX|weekday|A031|17|0|40004412|2|CIOS|24:09:30|24:10:00|INTERMEDIATE\r\n";
//! let calendar = b"\\Gcalendar\r\n\
//!     \\TLOCALSERVICEGROUPVALIDITY\r\n\
//!     \\LDataOwnerCode|LocalServiceLevelCode|OperationDate\r\n\
//!     CXX|weekday|2016-03-01\r\n";
//!
//! let mut day = Day::new();
//! day.open(planning, calendar)?;
//!
//! // The board at ten to twelve: the bus of ten past, which still belongs to the day before.
//! let question = Question::new("CXX", "40004412", Date::new(2016, 3, 1), 23 * 3600 + 50 * 60, 1800);
//! let board = day.board(&question)?;
//! let bus = board.rows().next().expect("one bus is shown");
//! assert_eq!((bus.line(), bus.destination(), bus.status()), ("A031", "CIOS", Status::Planned));
//! assert_eq!(bus.departure(), Some(Time::new(24, 10, 0)));
//! assert_eq!(bus.departs().unwrap().to_string(), "2016-03-02 00:10:00");
//!
//! // A message cancels it. Whoever is not registered for its owner cannot.
//! let message = b"\\Gmessage\r\n\
//!     \\TDATEDPASSTIME\r\n\
//!     \\LDataOwnerCode|OperationDate|LinePlanningNumber|VehicleJourneyNumber|FortifyOrderNumber|UserStopCode|\
//!     UserStopOrderNumber|DestinationCode|LastUpdateTimeStamp|TripStopStatus|ExpectedArrivalTime|\
//!     ExpectedDepartureTime|JourneyStopType|ShowCancelledTrip\r\n\
//!     CXX|2016-03-01|A031|17|0|40004412|2|CIOS|2016-03-01T22:15:30+01:00|CANCEL|24:09:30|24:10:00|INTERMEDIATE|1\r\n";
//! let mut register = Register::new();
//! assert_eq!(day.message(message, Sender(7), Form::OLD, &register), Err(Refusal::NotRegistered { line: 4 }));
//! register.add(Sender(7), "CXX")?;
//! let number = day.message(message, Sender(7), Form::OLD, &register)?.expect("it has rows");
//! assert_eq!(day.board(&question)?.rows().next().unwrap().status(), Status::Cancel);
//!
//! // Withdrawn, it is as if it had never been.
//! assert_eq!(day.withdraw(number, Sender(8)), Err(Refusal::OtherSender));
//! day.withdraw(number, Sender(7))?;
//! assert_eq!(day.board(&question)?.rows().next().unwrap().status(), Status::Planned);
//! # Ok::<(), Box<dyn std::error::Error>>(())
//! ```
//!
//! [`layout`] has the sizes, the places of a row's fields and the refusals as data. The library is linked by the crate
//! `raw`, which says what to run where it is not there.
#![forbid(unsafe_code)]
#![warn(missing_docs)]

mod board;
mod day;
mod feed;
mod form;
mod refusal;
mod register;
mod row;
mod time;

pub use board::{Board, Question};
pub use day::{Bytes, Counts, Day, MessageNumber};
pub use feed::{Feed, Kept, NotEnded};
pub use form::Form;
pub use layout;
pub use refusal::{Dossier, Refusal};
pub use register::{NotAdded, Register, Sender};
pub use row::{Flexible, Row, ShowCancelled, Status, StopType, Table};
pub use time::{Date, Moment, Time};
