//! Conversions to and from the types of the crate time.

use crate::conversions::{found, local, micros, narrow};
use crate::{ConversionError, Moment, Parts};
use time::{Date, Month, OffsetDateTime, PrimitiveDateTime, Time, UtcOffset};

/// The same date and time, where it is one.
///
/// ```
/// use sorbilgan::Moment;
/// use time::PrimitiveDateTime;
///
/// let noon = Moment { hour: 12, ..Moment::midnight(2024, 2, 29) };
/// assert_eq!(PrimitiveDateTime::try_from(noon)?.to_string(), "2024-02-29 12:00:00.0");
/// assert!(PrimitiveDateTime::try_from(Moment::midnight(2023, 2, 29)).is_err());
/// # Ok::<(), sorbilgan::ConversionError>(())
/// ```
impl TryFrom<Moment> for PrimitiveDateTime {
    type Error = ConversionError;

    fn try_from(m: Moment) -> Result<PrimitiveDateTime, ConversionError> {
        let month = found(Month::try_from(narrow::<u8>(m.month)?).ok())?;
        let date = found(Date::from_calendar_date(m.year, month, narrow(m.day)?).ok())?;
        let (hour, minute, second) = (narrow(m.hour)?, narrow(m.minute)?, narrow(m.second)?);
        let time = found(Time::from_hms_micro(hour, minute, second, narrow(m.micros)?).ok())?;
        Ok(PrimitiveDateTime::new(date, time))
    }
}

/// The same date and time, in whole microseconds.
///
/// ```
/// use sorbilgan::Moment;
/// use time::{Date, Month, PrimitiveDateTime, Time};
///
/// let day = Date::from_calendar_date(2024, Month::February, 29)?;
/// let at = |nanosecond| Ok::<_, time::Error>(PrimitiveDateTime::new(day, Time::from_hms_nano(21, 5, 0, nanosecond)?));
/// assert!(Moment::try_from(at(500_000_001)?).is_err());
/// assert_eq!(Moment::try_from(at(500_000_000)?)?.micros, 500_000);
/// # Ok::<(), Box<dyn std::error::Error>>(())
/// ```
impl TryFrom<PrimitiveDateTime> for Moment {
    type Error = ConversionError;

    fn try_from(time: PrimitiveDateTime) -> Result<Moment, ConversionError> {
        Ok(Moment {
            year: time.year(),
            month: i32::from(u8::from(time.month())),
            day: i32::from(time.day()),
            hour: i32::from(time.hour()),
            minute: i32::from(time.minute()),
            second: i32::from(time.second()),
            micros: micros(time.nanosecond())?,
        })
    }
}

/// The time with its offset. An input without an offset is read as UTC, as [`instant`](crate::instant) has it.
///
/// ```
/// use sorbilgan::read;
/// use time::OffsetDateTime;
///
/// let parts = read("YYYY-MM-DD HH24:MI TZH", "2024-02-29 21:05 +07")?;
/// assert_eq!(OffsetDateTime::try_from(parts)?.unix_timestamp(), 1_709_215_500);
/// # Ok::<(), Box<dyn std::error::Error>>(())
/// ```
impl TryFrom<Parts> for OffsetDateTime {
    type Error = ConversionError;

    fn try_from(parts: Parts) -> Result<OffsetDateTime, ConversionError> {
        let (moment, seconds) = local(parts)?;
        let offset = found(UtcOffset::from_whole_seconds(seconds).ok())?;
        Ok(PrimitiveDateTime::try_from(moment)?.assume_offset(offset))
    }
}
