//! Dates and moments (section 2).

/// 2: whether the number YYYYMMDD is a real date of the years 2000 to 2099.
pub fn is_date(date: u32) -> bool {
    let (year, month, day) = (date / 10_000, date / 100 % 100, date % 100);
    (2000..=2099).contains(&year) && (1..=12).contains(&month) && day >= 1 && day <= days_of_month(year, month)
}

/// The calendar: the days of a month.
fn days_of_month(year: u32, month: u32) -> u32 {
    match month {
        4 | 6 | 9 | 11 => 30,
        2 if is_leap(year) => 29,
        2 => 28,
        _ => 31,
    }
}

/// The calendar: every fourth year, but of the hundreds only every fourth.
fn is_leap(year: u32) -> bool {
    year.is_multiple_of(4) && (!year.is_multiple_of(100) || year.is_multiple_of(400))
}

/// 2.5: days from 2000-01-01 to a date.
pub fn days_since_2000(date: u32) -> u64 {
    let (year, month, day) = (date / 10_000, date / 100 % 100, date % 100);
    let years: u32 = (2000..year).map(|earlier| if is_leap(earlier) { 366 } else { 365 }).sum();
    let months: u32 = (1..month).map(|earlier| days_of_month(year, earlier)).sum();
    u64::from(years + months + day - 1)
}

/// 2.5: a moment, in seconds since 2000-01-01 00:00:00, of a date and seconds of its operating day.
pub fn moment(date: u32, seconds: u32) -> u64 {
    days_since_2000(date) * 86_400 + u64::from(seconds)
}
