use std::fmt;

/// A date, as the number YYYYMMDD.
///
/// Any number may be asked with: one that is no date from 2000 to 2099 is refused as out of range.
#[derive(Clone, Copy, Debug, PartialEq, Eq, PartialOrd, Ord, Hash)]
pub struct Date(pub u32);

/// A time of an operating day, in seconds: up to 115,199, so that 24:10:00 is ten past midnight of the next date.
#[derive(Clone, Copy, Debug, PartialEq, Eq, PartialOrd, Ord, Hash)]
pub struct Time(pub u32);

/// A moment on the clock: a date, and a second of it.
#[derive(Clone, Copy, Debug, PartialEq, Eq, PartialOrd, Ord, Hash)]
pub struct Moment {
    /// The date on the clock.
    pub date: Date,
    /// The second of the date, 0 to 86,399.
    pub second: u32,
}

const DAY: u32 = 86_400;

impl Date {
    /// The date of a year, a month and a day.
    ///
    /// ```
    /// # use zhemdurak::Date;
    /// assert_eq!(Date::new(2016, 3, 1), Date(20160301));
    /// assert_eq!(Date::new(2016, 2, 29).next(), Date::new(2016, 3, 1));
    /// assert_eq!(Date::new(2016, 3, 1).to_string(), "2016-03-01");
    /// ```
    pub const fn new(year: u32, month: u32, day: u32) -> Date {
        Date(year * 10_000 + month * 100 + day)
    }

    /// The date after this one, which is one from 2000 to 2099.
    pub const fn next(self) -> Date {
        let (year, month, day) = (self.0 / 10_000, self.0 / 100 % 100, self.0 % 100);
        let days = match month {
            2 if year.is_multiple_of(4) => 29,
            2 => 28,
            4 | 6 | 9 | 11 => 30,
            _ => 31,
        };
        match (day < days, month < 12) {
            (true, _) => Date(self.0 + 1),
            (_, true) => Date::new(year, month + 1, 1),
            _ => Date::new(year + 1, 1, 1),
        }
    }
}

impl Time {
    /// The time of an hour, a minute and a second.
    pub const fn new(hour: u32, minute: u32, second: u32) -> Time {
        Time(hour * 3_600 + minute * 60 + second)
    }

    /// Where the clock stands at this time of the operating day.
    ///
    /// ```
    /// # use zhemdurak::{Date, Moment, Time};
    /// let moment = Time::new(24, 10, 0).on(Date::new(2016, 12, 31));
    /// assert_eq!(moment, Moment { date: Date::new(2017, 1, 1), second: 600 });
    /// assert_eq!(moment.to_string(), "2017-01-01 00:10:00");
    /// ```
    pub const fn on(self, date: Date) -> Moment {
        if self.0 < DAY {
            Moment { date, second: self.0 }
        } else {
            Moment { date: date.next(), second: self.0 - DAY }
        }
    }
}

impl fmt::Display for Date {
    fn fmt(&self, f: &mut fmt::Formatter) -> fmt::Result {
        write!(f, "{:04}-{:02}-{:02}", self.0 / 10_000, self.0 / 100 % 100, self.0 % 100)
    }
}

impl fmt::Display for Time {
    fn fmt(&self, f: &mut fmt::Formatter) -> fmt::Result {
        write!(f, "{:02}:{:02}:{:02}", self.0 / 3_600, self.0 / 60 % 60, self.0 % 60)
    }
}

impl fmt::Display for Moment {
    fn fmt(&self, f: &mut fmt::Formatter) -> fmt::Result {
        write!(f, "{} {}", self.date, Time(self.second))
    }
}

#[cfg(test)]
mod tests {
    use super::*;

    #[test]
    fn every_date_of_the_century_once() {
        let (mut date, mut count) = (Date::new(2000, 1, 1), 0);
        while date < Date::new(2100, 1, 1) {
            date = date.next();
            count += 1;
        }
        assert_eq!((date, count), (Date(21000101), 36_525));
    }

    #[test]
    fn times_past_midnight() {
        let last = Time::new(31, 59, 59).on(Date::new(2099, 12, 31));
        assert_eq!(last.to_string(), "2100-01-01 07:59:59");
        assert_eq!(Time(86_399).on(Date(20160301)).to_string(), "2016-03-01 23:59:59");
        assert_eq!(Time(86_400).on(Date(20160229)).to_string(), "2016-03-01 00:00:00");
        assert_eq!(Time(115_199).to_string(), "31:59:59");
    }
}
