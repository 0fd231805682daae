//! Conversions to and from chrono's types.

use crate::conversions::{found, local, micros, narrow};
use crate::{ConversionError, Moment, Parts};
use chrono::{DateTime, Datelike, Duration, FixedOffset, NaiveDate, NaiveDateTime, TimeZone, Timelike};

/// The same date and time, where it is one.
///
/// ```
/// use chrono::NaiveDateTime;
/// use sorbilgan::Moment;
///
/// let noon = Moment { hour: 12, ..Moment::midnight(2024, 2, 29) };
/// assert_eq!(NaiveDateTime::try_from(noon)?.to_string(), "2024-02-29 12:00:00");
/// assert!(NaiveDateTime::try_from(Moment::midnight(2023, 2, 29)).is_err());
/// # Ok::<(), sorbilgan::ConversionError>(())
/// ```
impl TryFrom<Moment> for NaiveDateTime {
    type Error = ConversionError;

    fn try_from(m: Moment) -> Result<NaiveDateTime, ConversionError> {
        let date = found(NaiveDate::from_ymd_opt(m.year, narrow(m.month)?, narrow(m.day)?))?;
        // chrono counts a leap second as more than a million microseconds
        let micros = found((0..1_000_000).contains(&m.micros).then_some(m.micros as u32))?;
        found(date.and_hms_micro_opt(narrow(m.hour)?, narrow(m.minute)?, narrow(m.second)?, micros))
    }
}

/// The same date and time, in whole microseconds and without a leap second.
///
/// ```
/// use chrono::{NaiveDate, SubsecRound};
/// use sorbilgan::Moment;
///
/// let time = NaiveDate::from_ymd_opt(2024, 2, 29).unwrap().and_hms_nano_opt(21, 5, 0, 500_000_001).unwrap();
/// assert!(Moment::try_from(time).is_err());
/// assert_eq!(Moment::try_from(time.trunc_subsecs(6))?.micros, 500_000);
/// # Ok::<(), sorbilgan::ConversionError>(())
/// ```
impl TryFrom<NaiveDateTime> for Moment {
    type Error = ConversionError;

    fn try_from(time: NaiveDateTime) -> Result<Moment, ConversionError> {
        Ok(Moment {
            year: time.year(),
            month: time.month() as i32,
            day: time.day() as i32,
            hour: time.hour() as i32,
            minute: time.minute() as i32,
            second: time.second() as i32,
            micros: micros(time.nanosecond())?,
        })
    }
}

/// The time with its offset. An input without an offset is read as UTC, as [`instant`](crate::instant) has it.
///
/// ```
/// use chrono::{DateTime, FixedOffset};
/// use sorbilgan::read;
///
/// let parts = read("YYYY-MM-DD HH24:MI TZH", "2024-02-29 21:05 +07")?;
/// assert_eq!(DateTime::<FixedOffset>::try_from(parts)?.to_rfc3339(), "2024-02-29T21:05:00+07:00");
/// # Ok::<(), Box<dyn std::error::Error>>(())
/// ```
impl TryFrom<Parts> for DateTime<FixedOffset> {
    type Error = ConversionError;

    fn try_from(parts: Parts) -> Result<DateTime<FixedOffset>, ConversionError> {
        let (moment, seconds) = local(parts)?;
        let offset = found(FixedOffset::east_opt(seconds))?;
        // at the ends of chrono's years the time in UTC may be outside
        let utc = NaiveDateTime::try_from(moment)?.checked_sub_signed(Duration::seconds(seconds.into()));
        Ok(offset.from_utc_datetime(&found(utc)?))
    }
}
