//! Seconds to a date and time in the Gregorian calendar, also before it came into use.

use crate::limits::FIRST_SECOND;

/// Days of 400, of 100 and of 4 years, as they begin after a year divisible by 400.
const DAYS_400: i64 = 400 * 365 + 97;
const DAYS_100: i64 = 100 * 365 + 24;
const DAYS_4: i64 = 4 * 365 + 1;

fn is_leap(year: i64) -> bool {
    year % 4 == 0 && (year % 100 != 0 || year % 400 == 0)
}

/// A dateTime as `1970-01-01T00:00:00Z`, the year with four digits.
pub fn date_time(seconds: i64) -> String {
    let since_year_1 = seconds - FIRST_SECOND;
    let (mut days, second) = (since_year_1.div_euclid(86_400), since_year_1.rem_euclid(86_400));
    let mut year = 1 + 400 * (days / DAYS_400);
    days %= DAYS_400;
    // The last of 4 hundreds, and of 4 years, is a day longer: it keeps its last day.
    let hundreds = (days / DAYS_100).min(3);
    days -= hundreds * DAYS_100;
    let fours = days / DAYS_4;
    days %= DAYS_4;
    let ones = (days / 365).min(3);
    days -= ones * 365;
    year += 100 * hundreds + 4 * fours + ones;
    let february = if is_leap(year) { 29 } else { 28 };
    let mut month = 1;
    for length in [31, february, 31, 30, 31, 30, 31, 31, 30, 31, 30, 31] {
        if days < length {
            break;
        }
        days -= length;
        month += 1;
    }
    let (hour, minute) = (second / 3600, second / 60 % 60);
    format!("{year:04}-{month:02}-{:02}T{hour:02}:{minute:02}:{:02}Z", days + 1, second % 60)
}

#[cfg(test)]
mod tests {
    use super::*;
    use crate::limits::LAST_SECOND;

    /// Each day of the first, the fifth and the last 400 years, counted on by the rules of the calendar.
    #[test]
    fn every_day_of_three_cycles() {
        for cycle in [0, 4, 24] {
            let (mut year, mut month, mut day) = (1 + 400 * cycle, 1, 1);
            let mut second = FIRST_SECOND + cycle * DAYS_400 * 86_400;
            while second <= LAST_SECOND && year <= 400 * (cycle + 1) {
                assert_eq!(date_time(second), format!("{year:04}-{month:02}-{day:02}T00:00:00Z"));
                let length = match month {
                    2 if is_leap(year) => 29,
                    2 => 28,
                    4 | 6 | 9 | 11 => 30,
                    _ => 31,
                };
                day += 1;
                if day > length {
                    (day, month) = (1, month + 1);
                }
                if month > 12 {
                    (month, year) = (1, year + 1);
                }
                second += 86_400;
            }
            // After 400 years the next cycle begins; the last ends a year early, with the last second.
            assert_eq!((month, day), (1, 1));
            assert_eq!(year, if cycle == 24 { 10_000 } else { 400 * (cycle + 1) + 1 });
        }
    }
}
