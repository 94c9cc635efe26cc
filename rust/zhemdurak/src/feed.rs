use std::fmt;

use layout::{ACCEPTED, BODY_WIDE, FEED, LINE, STAGING};

use crate::{Bytes, Day, Form, MessageNumber, Refusal, Register, Sender};

/// A message whose dossier comes in parts, cut anywhere: also inside a line, an escape or a line end.
///
/// Its rows wait in a staging area until the end; before that no day is touched, or even named. What a [`Day`] makes of
/// them, and each refusal with its places, is what [`Day::message`] makes of the whole dossier, but for
/// [`Refusal::StagingShort`].
///
/// ```
/// use zhemdurak::{Day, Feed, Form, Refusal, Register, Sender};
///
/// let labels = "DataOwnerCode|OperationDate|LinePlanningNumber|VehicleJourneyNumber|FortifyOrderNumber|UserStopCode|\
///     UserStopOrderNumber|DestinationCode|LastUpdateTimeStamp|TripStopStatus|ExpectedArrivalTime|\
///     ExpectedDepartureTime|JourneyStopType";
/// let row = "CXX|2016-03-01|A031|17|0|40004412|2|CIOS|2016-03-01T22:15:30+01:00|DRIVING|24:09:30|24:10:00|INTERMEDIATE";
/// let dossier = format!("\\Gmessage\r\n\\TDATEDPASSTIME\r\n\\L{labels}\r\n{row}\r\n");
/// let mut register = Register::new();
/// register.add(Sender(7), "CXX")?;
///
/// let mut feed = Feed::begin(Sender(7), Form::OLD);
/// for part in dossier.as_bytes().chunks(100) {
///     feed.part(part, &register)?;
/// }
///
/// // A book without room refuses it. The feed comes back, and may be ended again.
/// let not_ended = feed.end(&mut Day::with_room(0, 1), &register).unwrap_err();
/// assert_eq!(not_ended.refusal, Refusal::BookShort);
/// let mut day = Day::new();
/// let number = not_ended.feed.end(&mut day, &register)?.expect("it has rows");
/// assert_eq!((number.0, day.counts().rows), (1, 1));
/// # Ok::<(), Box<dyn std::error::Error>>(())
/// ```
///
/// A feed that was taken is gone, so that it cannot be taken twice:
///
/// ```compile_fail,E0382
/// # use zhemdurak::{Day, Feed, Form, Register, Sender};
/// let (mut day, register) = (Day::new(), Register::new());
/// let feed = Feed::begin(Sender(7), Form::OLD);
/// feed.end(&mut day, &register);
/// feed.end(&mut day, &register);
/// ```
#[derive(Clone)]
pub struct Feed<B = Vec<u8>> {
    kept: Box<Kept>,
    staging: B,
}

/// What a feed keeps from part to part beside its rows, to save it with them. What the numbers mean is the library's own.
#[derive(Clone, PartialEq, Eq)]
pub struct Kept {
    /// How far the dossier has come, and what was found.
    pub numbers: [u64; FEED],
    /// The line that is cut: its bytes so far, and zeros behind them.
    pub line: [u8; LINE],
}

/// A feed that a day has refused: nothing is changed, neither of them.
pub struct NotEnded<B = Vec<u8>> {
    /// Why.
    pub refusal: Refusal,
    /// It may be ended again, with another day or register say; or take more parts before that.
    pub feed: Feed<B>,
}

impl Feed {
    /// A message from this sender and in this form begins, with room for the rows of any dossier. A form that is not known
    /// is refused at the end.
    pub fn begin(sender: Sender, form: Form) -> Feed {
        Feed::lent(sender, form, vec![0; STAGING])
    }

    /// The same with room for so many rows.
    pub fn with_room(sender: Sender, form: Form, rows: usize) -> Feed {
        Feed::lent(sender, form, vec![0; rows * BODY_WIDE])
    }
}

impl<B: Bytes> Feed<B> {
    /// A message from this sender and in this form begins. Its rows wait in these bytes, [`layout::BODY_WIDE`] each; their contents are not
    /// read. Bytes that are borrowed may be lent to the next feed when this one has ended.
    pub fn lent(sender: Sender, form: Form, staging: B) -> Feed<B> {
        let mut kept = Box::new(Kept { numbers: [0; FEED], line: [0; LINE] });
        raw::feed_begin(sender.0, form.0, &mut kept.numbers);
        Feed { kept, staging }
    }

    /// A feed that was kept. Nothing is checked here: what is no begun feed is refused as [unsound](Refusal::Unsound) by
    /// its next part, or its end.
    pub fn resumed(kept: Box<Kept>, staging: B) -> Feed<B> {
        Feed { kept, staging }
    }

    /// What it keeps, and its rows.
    pub fn into_parts(self) -> (Box<Kept>, B) {
        (self.kept, self.staging)
    }

    /// The next part, of any length. What is wrong with the dossier is told at the end; the register is asked for each row
    /// as its line ends. Only a feed that was [resumed](Feed::resumed) may be refused here.
    pub fn part(&mut self, part: &[u8], register: &Register) -> Result<(), Refusal> {
        let Kept { numbers, line } = &mut *self.kept;
        match raw::feed(part, register.as_bytes(), self.staging.as_mut(), line, numbers) {
            ACCEPTED => Ok(()),
            number => Err(Refusal::of([number.into(), 0, 0, 0, 0, 0]).expect("it is no acceptance")),
        }
    }

    /// The end: the message is taken whole, and the feed is gone; or refused whole, and the feed comes back as it was. The
    /// number is what [`Day::message`] gives.
    pub fn end<D: Bytes>(
        mut self,
        day: &mut Day<D>,
        register: &Register,
    ) -> Result<Option<MessageNumber>, NotEnded<B>> {
        day.take_staged(&mut self.kept, self.staging.as_ref(), register)
            .map_err(|refusal| NotEnded { refusal, feed: self })
    }
}

impl<B> From<NotEnded<B>> for Refusal {
    fn from(not_ended: NotEnded<B>) -> Refusal {
        not_ended.refusal
    }
}

impl<B> fmt::Display for NotEnded<B> {
    fn fmt(&self, f: &mut fmt::Formatter) -> fmt::Result {
        self.refusal.fmt(f)
    }
}

impl<B> fmt::Debug for NotEnded<B> {
    fn fmt(&self, f: &mut fmt::Formatter) -> fmt::Result {
        f.debug_struct("NotEnded").field("refusal", &self.refusal).finish_non_exhaustive()
    }
}

impl<B> std::error::Error for NotEnded<B> {}

impl<B> fmt::Debug for Feed<B> {
    fn fmt(&self, f: &mut fmt::Formatter) -> fmt::Result {
        f.debug_struct("Feed").finish_non_exhaustive()
    }
}
