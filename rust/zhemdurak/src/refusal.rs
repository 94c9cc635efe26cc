use std::fmt;

use layout::{refusal, RefusalForm, ANSWER_DOSSIER, ANSWER_NUMBER, ANSWER_SECOND, ANSWER_VALUE};

/// Why a call was refused. A refused call has changed nothing.
///
/// Where several reasons hold, the first in the order of [`layout::REFUSALS`] is given.
#[derive(Clone, Copy, Debug, PartialEq, Eq, Hash)]
#[non_exhaustive]
pub enum Refusal {
    /// 1: counts, book, table, register, feed or staged rows cannot be worked with. A day made by
    /// [`Day::new`](crate::Day::new) and changed by its calls alone never gets it, and a feed made by
    /// [`Feed::begin`](crate::Feed::begin) neither.
    Unsound,
    /// 2: a dossier has more than [`layout::DOSSIER`] bytes.
    TooLong {
        /// Which one.
        dossier: Dossier,
    },
    /// 3: a dossier is not well formed.
    Syntax {
        /// Which one.
        dossier: Dossier,
        /// The first byte that no well-formed dossier could have there, from 0; its length where it ends early.
        offset: u64,
    },
    /// 4: a wanted column stands twice or is missing, or a line has another number of fields than its label line.
    Form {
        /// Which one.
        dossier: Dossier,
        /// The first such line, from 1.
        line: u64,
    },
    /// 5: a wanted field is outside its type.
    Field {
        /// Which one.
        dossier: Dossier,
        /// The first such line, from 1.
        line: u64,
        /// The first such field of the line, from 1.
        column: u64,
    },
    /// 6: the sender is not registered for a row's owner.
    NotRegistered {
        /// The first such line, from 1. At the end of a [feed](crate::Feed) it is 0 where the sender was registered when
        /// the line came, and is not now.
        line: u64,
    },
    /// 7: there is no room in the book.
    BookShort,
    /// 8: there is no room in the table.
    TableShort,
    /// 9: a passage is planned twice.
    KeyTwice,
    /// 10: no message has the number.
    NoMessage,
    /// 11: the message has been withdrawn already.
    AlreadyWithdrawn,
    /// 12: the sender is neither the message's nor the desk.
    OtherSender,
    /// 13: owner, stop, date, second or horizon is out of its range.
    OutOfRange,
    /// 14: there is no room in the staging area of a [feed](crate::Feed), or there was none while its rows came.
    StagingShort,
    /// 15: a line has more than [`layout::LINE`] bytes, its CR LF among them.
    LineLong {
        /// Which dossier has it.
        dossier: Dossier,
        /// The first such line, from 1.
        line: u64,
    },
    /// 18: the [form](crate::Form) is none that is known.
    UnknownForm,
    /// A number that this crate has no name for: the library is newer.
    Other {
        /// The number.
        number: u32,
        /// The value that belongs to it.
        value: u64,
        /// The second value.
        second: u64,
    },
}

/// Which dossier a refusal is about.
#[derive(Clone, Copy, Debug, PartialEq, Eq, Hash)]
pub enum Dossier {
    /// A message's only one.
    Message,
    /// The first of an opening.
    Planning,
    /// The second of an opening.
    Calendar,
}

impl Refusal {
    /// The refusal that an answer tells; none where it is an acceptance. A board's three numbers are the first three.
    pub(crate) fn of(answer: [u64; layout::ANSWER]) -> Option<Refusal> {
        let (value, second) = (answer[ANSWER_VALUE], answer[ANSWER_SECOND]);
        let dossier = match answer[ANSWER_DOSSIER] {
            1 => Dossier::Planning,
            2 => Dossier::Calendar,
            _ => Dossier::Message,
        };
        Some(match answer[ANSWER_NUMBER] as u32 {
            layout::ACCEPTED => return None,
            1 => Refusal::Unsound,
            2 => Refusal::TooLong { dossier },
            3 => Refusal::Syntax { dossier, offset: value },
            4 => Refusal::Form { dossier, line: value },
            5 => Refusal::Field { dossier, line: value, column: second },
            6 => Refusal::NotRegistered { line: value },
            7 => Refusal::BookShort,
            8 => Refusal::TableShort,
            9 => Refusal::KeyTwice,
            10 => Refusal::NoMessage,
            11 => Refusal::AlreadyWithdrawn,
            12 => Refusal::OtherSender,
            13 => Refusal::OutOfRange,
            14 => Refusal::StagingShort,
            15 => Refusal::LineLong { dossier, line: value },
            18 => Refusal::UnknownForm,
            number => Refusal::Other { number, value, second },
        })
    }

    /// The refusal's number.
    pub fn number(&self) -> u32 {
        match self {
            Refusal::Unsound => 1,
            Refusal::TooLong { .. } => 2,
            Refusal::Syntax { .. } => 3,
            Refusal::Form { .. } => 4,
            Refusal::Field { .. } => 5,
            Refusal::NotRegistered { .. } => 6,
            Refusal::BookShort => 7,
            Refusal::TableShort => 8,
            Refusal::KeyTwice => 9,
            Refusal::NoMessage => 10,
            Refusal::AlreadyWithdrawn => 11,
            Refusal::OtherSender => 12,
            Refusal::OutOfRange => 13,
            Refusal::StagingShort => 14,
            Refusal::LineLong { .. } => 15,
            Refusal::UnknownForm => 18,
            Refusal::Other { number, .. } => *number,
        }
    }

    /// What the layout says of it: its words, and which calls give it. None of [`Refusal::Other`].
    pub fn form(&self) -> Option<&'static RefusalForm> {
        refusal(self.number())
    }

    /// The dossier that it is about, where it is about one.
    pub fn dossier(&self) -> Option<Dossier> {
        match *self {
            Refusal::TooLong { dossier }
            | Refusal::Syntax { dossier, .. }
            | Refusal::LineLong { dossier, .. }
            | Refusal::Form { dossier, .. }
            | Refusal::Field { dossier, .. } => Some(dossier),
            Refusal::NotRegistered { .. } => Some(Dossier::Message),
            _ => None,
        }
    }

    /// The answer's value and second value: an offset, or a line and a column, or 0.
    pub fn values(&self) -> [u64; 2] {
        match *self {
            Refusal::Syntax { offset, .. } => [offset, 0],
            Refusal::LineLong { line, .. } | Refusal::Form { line, .. } | Refusal::NotRegistered { line } => [line, 0],
            Refusal::Field { line, column, .. } => [line, column],
            Refusal::Other { value, second, .. } => [value, second],
            _ => [0, 0],
        }
    }
}

/// As in `refused with 5: planning, line 4, column 12: a wanted field is outside its type`.
impl fmt::Display for Refusal {
    fn fmt(&self, f: &mut fmt::Formatter) -> fmt::Result {
        write!(f, "refused with {}: ", self.number())?;
        match self.dossier() {
            Some(Dossier::Planning) => write!(f, "planning, ")?,
            Some(Dossier::Calendar) => write!(f, "calendar, ")?,
            _ => {}
        }
        match *self {
            Refusal::Syntax { offset, .. } => write!(f, "byte {offset}: ")?,
            Refusal::NotRegistered { line: 0 } => {}
            Refusal::LineLong { line, .. } | Refusal::Form { line, .. } | Refusal::NotRegistered { line } => {
                write!(f, "line {line}: ")?
            }
            Refusal::Field { line, column, .. } => write!(f, "line {line}, column {column}: ")?,
            _ => {}
        }
        f.write_str(self.form().map_or("for a reason that this crate has no words for", |form| form.words))
    }
}

impl std::error::Error for Refusal {}

#[cfg(test)]
mod tests {
    use super::*;

    /// Each refusal of the layout has a variant, whose values are those that the layout says.
    #[test]
    fn every_number_has_its_variant() {
        for form in layout::REFUSALS {
            let refusal = Refusal::of([form.number.into(), 5, 6, form.of_dossier.into(), 0, 0]).expect("refused");
            assert_eq!(refusal.form(), Some(form));
            let values = match form.places {
                layout::Places::None => [0, 0],
                layout::Places::Offset | layout::Places::Line => [5, 0],
                layout::Places::LineAndColumn => [5, 6],
            };
            assert_eq!(refusal.values(), values, "{refusal}");
            assert_eq!(refusal.dossier() == Some(Dossier::Planning), form.of_dossier, "{refusal}");
            assert!(refusal.to_string().ends_with(form.words));
        }
        assert_eq!(Refusal::of([0, 1, 0, 0, 72, 1]), None);
        assert_eq!(
            Refusal::of([99, 1, 2, 0, 0, 0]).map(|refusal| (refusal.number(), refusal.values())),
            Some((99, [1, 2]))
        );
    }

    #[test]
    fn words_with_places() {
        let field = Refusal::Field { dossier: Dossier::Planning, line: 4, column: 12 };
        assert_eq!(
            field.to_string(),
            "refused with 5: planning, line 4, column 12: a wanted field is outside its type"
        );
        let syntax = Refusal::Syntax { dossier: Dossier::Message, offset: 0 };
        assert_eq!(syntax.to_string(), "refused with 3: byte 0: a dossier is not well formed");
        assert_eq!(Refusal::NoMessage.to_string(), "refused with 10: no message has the number");
        let long = Refusal::LineLong { dossier: Dossier::Calendar, line: 2 };
        assert_eq!(long.to_string(), "refused with 15: calendar, line 2: a line has more than 4,096 bytes");
        assert_eq!(Refusal::UnknownForm.to_string(), "refused with 18: the form is none that is known");
        let row = "the sender is not registered for a row's owner";
        assert_eq!(Refusal::NotRegistered { line: 4 }.to_string(), format!("refused with 6: line 4: {row}"));
        assert_eq!(Refusal::NotRegistered { line: 0 }.to_string(), format!("refused with 6: {row}"));
    }
}
