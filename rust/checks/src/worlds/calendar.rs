//! Dates for the generator's own use.

pub const DAY_SECONDS: i64 = 86_400;

/// The date as year, month and day of a day counted from 1970-01-01.
pub fn date_of_day(day: i64) -> (i64, i64, i64) {
    // Years counted from March, in eras of 400 years, have no odd months.
    let shifted = day + 719_468;
    let era = shifted.div_euclid(146_097);
    let day_of_era = shifted.rem_euclid(146_097);
    let year_of_era = (day_of_era - day_of_era / 1_460 + day_of_era / 36_524 - day_of_era / 146_096) / 365;
    let day_of_year = day_of_era - (365 * year_of_era + year_of_era / 4 - year_of_era / 100);
    let month_from_march = (5 * day_of_year + 2) / 153;
    let day_of_month = day_of_year - (153 * month_from_march + 2) / 5 + 1;
    let month = if month_from_march < 10 { month_from_march + 3 } else { month_from_march - 9 };
    let year = year_of_era + era * 400 + i64::from(month <= 2);
    (year, month, day_of_month)
}

/// The day counted from 1970-01-01 of a YYYYMMDD number.
pub fn day_of_number(date: u32) -> i64 {
    let (year, month, day) = (i64::from(date / 10_000), i64::from(date / 100 % 100), i64::from(date % 100));
    let year = if month <= 2 { year - 1 } else { year };
    let era = year.div_euclid(400);
    let year_of_era = year.rem_euclid(400);
    let day_of_year = (153 * ((month + 9) % 12) + 2) / 5 + day - 1;
    era * 146_097 + year_of_era * 365 + year_of_era / 4 - year_of_era / 100 + day_of_year - 719_468
}

/// A day as a YYYYMMDD number.
pub fn number_of_day(day: i64) -> u32 {
    let (year, month, day) = date_of_day(day);
    (year * 10_000 + month * 100 + day) as u32
}

#[cfg(test)]
mod tests {
    use super::*;

    #[test]
    fn days_and_numbers_are_each_others_inverse() {
        assert_eq!(day_of_number(19_700_101), 0);
        assert_eq!(day_of_number(20_000_229) + 1, day_of_number(20_000_301));
        for day in day_of_number(20_000_101)..=day_of_number(20_991_231) {
            assert_eq!(day_of_number(number_of_day(day)), day);
        }
    }
}
