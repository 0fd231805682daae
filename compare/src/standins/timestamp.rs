//! The proleptic Gregorian calendar, by its own rules, and the ends of the range of timestamps.

use crate::error::{EngineError, SqlState};

pub const NEG_INFINITY: i64 = i64::MIN;
pub const POS_INFINITY: i64 = i64::MAX;

fn is_leap(year: i64) -> bool {
    year.rem_euclid(4) == 0 && (year.rem_euclid(100) != 0 || year.rem_euclid(400) == 0)
}

pub fn month_lengths(year: i64) -> [i64; 12] {
    let february = if is_leap(year) { 29 } else { 28 };
    [31, february, 31, 30, 31, 30, 31, 31, 30, 31, 30, 31]
}

/// The days from 0000-01-01 to the first day of a year: its 365 a year, and the leap years passed.
fn days_before_year(year: i64) -> i64 {
    let multiples = |k: i64| (year + k - 1).div_euclid(k);
    year * 365 + multiples(4) - multiples(100) + multiples(400)
}

/// The days from 1970-01-01 to a date, months 1 to 12; a day past its month's end runs on.
pub fn days_from_civil(year: i64, month: i64, day: i64) -> i64 {
    let before_month: i64 = month_lengths(year)[..month as usize - 1].iter().sum();
    days_before_year(year) - days_before_year(1970) + before_month + day - 1
}

pub fn civil_from_days(days: i64) -> (i64, i64, i64) {
    let from_year_0 = days + days_before_year(1970);
    let mut year = (from_year_0 * 400).div_euclid(146_097);
    while days_before_year(year) > from_year_0 {
        year -= 1;
    }
    while days_before_year(year + 1) <= from_year_0 {
        year += 1;
    }
    let (mut month, mut day) = (1, from_year_0 - days_before_year(year) + 1);
    for length in month_lengths(year) {
        if day > length {
            month += 1;
            day -= length;
        } else {
            break;
        }
    }
    (year, month, day)
}

/// Year, month, day, hour, minute, second and microsecond of a count of microseconds since 1970-01-01.
pub fn civil_from_micros(micros: i64) -> (i64, i64, i64, i64, i64, i64, i64) {
    const DAY: i64 = 86_400_000_000;
    let (year, month, day) = civil_from_days(micros.div_euclid(DAY));
    let rest = micros.rem_euclid(DAY);
    let seconds = rest / 1_000_000;
    let (hour, minute, second) = (seconds / 3600, seconds / 60 % 60, seconds % 60);
    (year, month, day, hour, minute, second, rest % 1_000_000)
}

pub fn zone_shift_out_of_range() -> EngineError {
    EngineError::new(SqlState::DatetimeFieldOverflow, "timestamp out of range")
}
