/// In which form a message says what it says. It is stated with each message: a dossier does not tell.
///
/// The forms differ in two columns. What a row holds where is the same in both, so that messages in either may follow one
/// another on a day.
///
/// ```
/// use zhemdurak::{Day, Form, Refusal, Register, Sender, ShowCancelled};
///
/// let labels = "DataOwnerCode|OperationDate|LinePlanningNumber|VehicleJourneyNumber|FortifyOrderNumber|UserStopCode|\
///     UserStopOrderNumber|DestinationCode|LastUpdateTimeStamp|TripStopStatus|ExpectedArrivalTime|\
///     ExpectedDepartureTime|JourneyStopType|ShowCancelledJourney|Monitored";
/// let row = "CXX|2016-03-01|A031|17|0|40004412|2|CIOS|2016-03-01T22:15:30+01:00|CANCEL|24:09:30|24:10:00|INTERMEDIATE|\
///     message|true";
/// let dossier = format!("\\Gmessage\r\n\\TDATEDPASSTIME\r\n\\L{labels}\r\n{row}\r\n").into_bytes();
/// let mut register = Register::new();
/// register.add(Sender(7), "CXX")?;
///
/// let mut day = Day::new();
/// day.message(&dossier, Sender(7), Form::NEW, &register)?;
/// let cancelled = day.table()?.row(0).expect("a passage");
/// assert_eq!((cancelled.show_cancelled(), cancelled.monitored()), (ShowCancelled::Message, true));
///
/// assert_eq!(day.message(&dossier, Sender(7), Form(2), &register), Err(Refusal::UnknownForm));
/// # Ok::<(), Box<dyn std::error::Error>>(())
/// ```
#[derive(Clone, Copy, Debug, PartialEq, Eq, Hash)]
pub struct Form(pub u32);

impl Form {
    /// The old one: ShowCancelledTrip and Monitored are `0` or `1`.
    pub const OLD: Form = Form(layout::OLD_FORM);
    /// That of turbo 8.5: ShowCancelledJourney is `true`, `false` or `message`, and Monitored `true` or `false`.
    pub const NEW: Form = Form(layout::NEW_FORM);
}
