//! The columns of the three wanted tables, and the whole layouts that 000 gives for two of them.

#[derive(Clone, Copy, Debug, PartialEq, Eq)]
pub enum Kind {
    Text,
    Number(usize),
    Flag,
    Date,
    Time,
    Stamp,
    Status,
    StopType,
    Flexible,
    /// true or false, in the 8.5 form.
    Truth,
    /// true, false or message, in the 8.5 form.
    Shown,
}

/// A wanted column: its name, its type, and whether it may be missing.
pub struct Wanted {
    pub name: &'static str,
    pub kind: Kind,
    pub optional: bool,
}

const fn required(name: &'static str, kind: Kind) -> Wanted {
    Wanted { name, kind, optional: false }
}

const fn optional(name: &'static str, kind: Kind) -> Wanted {
    Wanted { name, kind, optional: true }
}

/// A wanted table: its name, its columns, the whole layout that 000 gives, and what is wanted in another form and not in this one.
pub struct Form {
    pub name: &'static str,
    pub wanted: &'static [Wanted],
    pub full: &'static [&'static str],
    pub others: &'static [&'static str],
}

/// What stands at a table's label for show cancelled, by form.
pub const SHOW_CANCELLED: [&str; 2] = ["ShowCancelledTrip", "ShowCancelledJourney"];

/// What a message is read as in this form; one that is not known as the old one.
pub fn message(form: u32) -> &'static Form {
    if form == 1 {
        &NEW_MESSAGE
    } else {
        &MESSAGE
    }
}

/// The old form of a message.
pub static MESSAGE: Form = Form {
    name: "DATEDPASSTIME",
    wanted: &message_wanted(SHOW_CANCELLED[0], Kind::Flag, Kind::Flag),
    full: &message_full(SHOW_CANCELLED[0]),
    others: &[SHOW_CANCELLED[1]],
};

/// That of turbo 8.5.
pub static NEW_MESSAGE: Form = Form {
    name: "DATEDPASSTIME",
    wanted: &message_wanted(SHOW_CANCELLED[1], Kind::Shown, Kind::Truth),
    full: &message_full(SHOW_CANCELLED[1]),
    others: &[SHOW_CANCELLED[0]],
};

const fn message_wanted(show_cancelled: &'static str, shown: Kind, monitored: Kind) -> [Wanted; 16] {
    [
        required("DataOwnerCode", Kind::Text),
        required("OperationDate", Kind::Date),
        required("LinePlanningNumber", Kind::Text),
        required("VehicleJourneyNumber", Kind::Number(6)),
        required("FortifyOrderNumber", Kind::Number(2)),
        required("UserStopCode", Kind::Text),
        required("UserStopOrderNumber", Kind::Number(3)),
        required("DestinationCode", Kind::Text),
        required("LastUpdateTimeStamp", Kind::Stamp),
        required("TripStopStatus", Kind::Status),
        required("ExpectedArrivalTime", Kind::Time),
        required("ExpectedDepartureTime", Kind::Time),
        required("JourneyStopType", Kind::StopType),
        optional(show_cancelled, shown),
        optional("ShowFlexibleTrip", Kind::Flexible),
        optional("Monitored", monitored),
    ]
}

const fn message_full(show_cancelled: &'static str) -> [&'static str; 65] {
    [
        "DataOwnerCode",
        "OperationDate",
        "LinePlanningNumber",
        "VehicleJourneyNumber",
        "FortifyOrderNumber",
        "UserStopOrderNumber",
        "UserStopCode",
        "LocalServiceLevelCode",
        "JourneyPatternCode",
        "LineDirection",
        "LastUpdateTimeStamp",
        "DestinationCode",
        "IsTimingStop",
        "ExpectedArrivalTime",
        "ExpectedDepartureTime",
        "TripStopStatus",
        "MessageContent",
        "MessageType",
        "SideCode",
        "NumberOfCoaches",
        "WheelChairAccessible",
        "OperatorCode",
        "ReasonType",
        "SubReasonType",
        "ReasonContent",
        "AdviceType",
        "SubAdviceType",
        "AdviceContent",
        "TimingPointDataOwnerCode",
        "TimingPointCode",
        "JourneyStopType",
        "TargetArrivalTime",
        "TargetDepartureTime",
        "RecordedArrivalTime",
        "RecordedDepartureTime",
        "DetectedUserStopCode",
        "DistanceSinceDetectedUserStop",
        "Detected_RD_X",
        "Detected_RD_Y",
        "VehicleNumber",
        "BlockCode",
        "LineVeTagNumber",
        "VejoJourneyNumber",
        "VehicleJourneyType",
        "VejoBlockNumCode",
        "JourneyModificationType",
        "VejoDepartureTime",
        "VejoArrivalTime",
        "VejoTripStatusType",
        "ExtraJourney",
        "CancelledJourney",
        show_cancelled,
        "ShowFlexibleTrip",
        "Monitored",
        "MonitoringError",
        "ExtraCall",
        "CancelledCall",
        "ShowCancelledStop",
        "AimedQuayRef",
        "ExpectedQuayRef",
        "ActualQuayRef",
        "Occupancy",
        "LineDestIcon",
        "LineDestColor",
        "LineDestTextColor",
    ]
}

pub static PLANNING: Form = Form {
    name: "LOCALSERVICEGROUPPASSTIME",
    wanted: &[
        required("DataOwnerCode", Kind::Text),
        required("LinePlanningNumber", Kind::Text),
        required("VehicleJourneyNumber", Kind::Number(6)),
        required("FortifyOrderNumber", Kind::Number(2)),
        required("UserStopCode", Kind::Text),
        required("UserStopOrderNumber", Kind::Number(3)),
        required("LocalServiceLevelCode", Kind::Text),
        required("DestinationCode", Kind::Text),
        required("TargetArrivalTime", Kind::Time),
        required("TargetDepartureTime", Kind::Time),
        required("JourneyStopType", Kind::StopType),
        optional("ShowFlexibleTrip", Kind::Flexible),
    ],
    full: &[
        "DataOwnerCode",
        "LocalServiceLevelCode",
        "LinePlanningNumber",
        "VehicleJourneyNumber",
        "FortifyOrderNumber",
        "UserStopCode",
        "UserStopOrderNumber",
        "JourneyPatternCode",
        "LineDirection",
        "DestinationCode",
        "TargetArrivalTime",
        "TargetDepartureTime",
        "SideCode",
        "WheelChairAccessible",
        "JourneyStopType",
        "IsTimingStop",
        "ProductFormulaType",
        "GetIn",
        "GetOut",
        "ShowFlexibleTrip",
        "LineDestIcon",
        "LineDestColor",
        "LineDestTextColor",
        "BlockCode",
        "SequenceInBlock",
        "VehicleJourneyType",
    ],
    others: &[],
};

pub static CALENDAR: Form = Form {
    name: "LOCALSERVICEGROUPVALIDITY",
    wanted: &[
        required("DataOwnerCode", Kind::Text),
        required("LocalServiceLevelCode", Kind::Text),
        required("OperationDate", Kind::Date),
    ],
    full: &["DataOwnerCode", "LocalServiceLevelCode", "OperationDate"],
    others: &[],
};
