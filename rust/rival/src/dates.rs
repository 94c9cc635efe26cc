//! Real dates of the years 2000 to 2099, as YYYYMMDD numbers.

pub const DAY: u32 = 86_400;

/// Seconds from 1970-01-01 to 2000-01-01.
pub const SECONDS_TO_2000: u32 = 946_684_800;

const BEFORE_MONTH: [u32; 13] = [0, 0, 31, 59, 90, 120, 151, 181, 212, 243, 273, 304, 334];
const LENGTH: [u32; 13] = [0, 31, 28, 31, 30, 31, 30, 31, 31, 30, 31, 30, 31];

fn parts(date: u32) -> (u32, u32, u32) {
    (date / 10_000, date / 100 % 100, date % 100)
}

/// In 2000 to 2099 every fourth year is a leap year.
fn month_length(year: u32, month: u32) -> u32 {
    LENGTH[month as usize] + (month == 2 && year.is_multiple_of(4)) as u32
}

pub fn is_date(date: u32) -> bool {
    let (year, month, day) = parts(date);
    (2000..=2099).contains(&year) && (1..=12).contains(&month) && 1 <= day && day <= month_length(year, month)
}

/// Days since 2000-01-01 of a real date.
pub fn days(date: u32) -> u32 {
    let (year, month, day) = parts(date);
    let y = year - 2000;
    let leap = (month > 2 && year.is_multiple_of(4)) as u32;
    y * 365 + y.div_ceil(4) + BEFORE_MONTH[month as usize] + leap + day - 1
}

/// The day before a real date (1999-12-31 before the first one).
pub fn before(date: u32) -> u32 {
    let (year, month, day) = parts(date);
    match (month, day) {
        (1, 1) => (year - 1) * 10_000 + 1231,
        (_, 1) => year * 10_000 + (month - 1) * 100 + month_length(year, month - 1),
        _ => date - 1,
    }
}

/// The day after a real date (2100-01-01 after the last one).
pub fn after(date: u32) -> u32 {
    let (year, month, day) = parts(date);
    if day < month_length(year, month) {
        date + 1
    } else if month < 12 {
        year * 10_000 + (month + 1) * 100 + 1
    } else {
        (year + 1) * 10_000 + 101
    }
}

#[cfg(test)]
mod tests {
    use super::*;

    #[test]
    fn leap_days() {
        assert!(is_date(20000229) && !is_date(20230229) && is_date(20240229));
        assert!(!is_date(20000230) && !is_date(20160431) && !is_date(20161301));
        assert!(!is_date(20160001) && !is_date(20160100) && !is_date(19991231));
        assert!(!is_date(21000101) && !is_date(u32::MAX) && !is_date(0));
    }

    #[test]
    fn every_day_follows_the_one_before() {
        let (mut date, mut count) = (20000101, 0);
        while date != 21000101 {
            assert!(is_date(date), "{date}");
            assert_eq!(days(date), count);
            assert_eq!(before(after(date)), if after(date) == 21000101 { 20991231 } else { date });
            date = after(date);
            count += 1;
        }
        assert_eq!(count, 36_525);
        assert_eq!((20000000..21010000).filter(|&d| is_date(d)).count(), 36_525);
        assert_eq!(before(20000101), 19991231);
    }
}
