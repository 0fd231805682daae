use crate::Parts;
use std::error::Error;
use std::fmt;

/// What is written: a date and a time of day, without an offset.
///
/// Any numbers may be here. The writer tests them and refuses what is no moment of the years 1 to 9999
/// ([`Cause::NoMoment`](crate::Cause::NoMoment)).
///
/// ```
/// use sorbilgan::{format, Cause, Moment};
///
/// let moment = Moment { year: 2024, month: 2, day: 29, hour: 21, minute: 5, second: 0, micros: 0 };
/// assert_eq!(format("HH12:MI PM", &moment)?, "09:05 PM");
///
/// let none = Moment { year: 2023, ..moment };
/// assert_eq!(format("HH12:MI PM", &none).unwrap_err().cause(), Cause::NoMoment);
/// # Ok::<(), sorbilgan::Refusal>(())
/// ```
#[derive(Debug, Clone, Copy, PartialEq, Eq, PartialOrd, Ord, Hash)]
#[cfg_attr(feature = "serde", derive(serde::Serialize, serde::Deserialize))]
pub struct Moment {
    /// The year, 1 to 9999.
    pub year: i32,
    /// The month, 1 to 12.
    pub month: i32,
    /// The day, from 1 to the last of the month.
    pub day: i32,
    /// The hour, 0 to 23.
    pub hour: i32,
    /// The minute, 0 to 59.
    pub minute: i32,
    /// The second, 0 to 59.
    pub second: i32,
    /// The microsecond, 0 to 999,999.
    pub micros: i32,
}

impl Moment {
    /// The start of a day.
    ///
    /// ```
    /// use sorbilgan::Moment;
    ///
    /// let noon = Moment { hour: 12, ..Moment::midnight(2024, 2, 29) };
    /// assert!(Moment::midnight(2024, 2, 29) < noon);
    /// ```
    #[must_use]
    pub const fn midnight(year: i32, month: i32, day: i32) -> Moment {
        Moment { year, month, day, hour: 0, minute: 0, second: 0, micros: 0 }
    }
}

/// The moment of what was read, where nothing is lost: without an offset, and with a precision (`FF1` to `FF6`) only
/// where the microseconds have no more digits. A part that was not set has its default. Whether its numbers are a
/// moment is left to the writer.
///
/// ```
/// use sorbilgan::{format, read, Moment};
///
/// let moment = Moment::try_from(read("DD.MM.YYYY", "29.02.2024")?)?;
/// assert_eq!(format("YYYY-MM-DD", &moment)?, "2024-02-29");
///
/// assert!(Moment::try_from(read("SS.FF3", "5.250")?).is_ok());
/// assert!(Moment::try_from(read("SS.FF3", "5.2505")?).is_err());
/// assert!(Moment::try_from(read("HH24:MI TZH", "21:05 +07")?).is_err());
/// # Ok::<(), Box<dyn std::error::Error>>(())
/// ```
impl TryFrom<Parts> for Moment {
    type Error = TryFromPartsError;

    fn try_from(parts: Parts) -> Result<Moment, TryFromPartsError> {
        let Parts { year, month, day, hour, minute, second, micros, precision, offset, .. } = parts;
        let whole = precision == 0 || micros % 10_i32.pow(6 - precision.clamp(0, 6) as u32) == 0;
        if !whole || offset.is_some() {
            return Err(TryFromPartsError(()));
        }
        Ok(Moment { year, month, day, hour, minute, second, micros })
    }
}

/// The parts have an offset, or more digits than their precision: a moment has neither.
///
/// ```
/// use sorbilgan::{read, Moment, TryFromPartsError};
///
/// let zoned = read("HH24 TZH", "21 +07")?;
/// let error: TryFromPartsError = Moment::try_from(zoned).unwrap_err();
/// assert_eq!(error.to_string(), "a moment has no offset, and no digits beyond a precision");
/// # Ok::<(), sorbilgan::Refusal>(())
/// ```
#[derive(Debug, Clone, Copy, PartialEq, Eq, Hash)]
pub struct TryFromPartsError(());

impl fmt::Display for TryFromPartsError {
    fn fmt(&self, f: &mut fmt::Formatter<'_>) -> fmt::Result {
        f.write_str("a moment has no offset, and no digits beyond a precision")
    }
}

impl Error for TryFromPartsError {}
