use crate::Moment;
use sorbilgan_sys::{PartsAnswer, DAY_SET, MONTH_SET, YEAR_SET};

/// What is read: the parts of a moment.
///
/// A part that the template does not name, or names and finds to be 0, has the value that it would have at the start
/// of year 0: month and day 1, all others 0. The ranges are proved: month 1 to 12, day 1 to 31, hour 0 to 23, minute
/// and second 0 to 59, microseconds 0 to 999,999; and where year, month and day are all set, the month has that day.
///
/// Year, month and day have marks, which tell what was read from a default. A part is set by its own pattern or by
/// another: `J` and `IW` set all three, `DDD` and `WW` month and day, `W` the day, `CC` the year. One that is read as 0
/// is not set.
///
/// ```
/// use sorbilgan::read;
///
/// let parts = read("YYYY-MM-DD", "2024-01")?;
/// assert_eq!((parts.year, parts.month, parts.day), (2024, 1, 1));
/// assert!(parts.year_set && parts.month_set && !parts.day_set);
///
/// assert!(!read("YYYY-MM-DD", "0000-02-30")?.year_set);
/// # Ok::<(), sorbilgan::Refusal>(())
/// ```
///
/// Later versions may have more parts, so it is made by reading or from a [`Moment`], and taken apart with `..`:
///
/// ```compile_fail,E0638
/// use sorbilgan::{Moment, Parts};
///
/// let parts = Parts::from(Moment::midnight(2024, 2, 29));
/// let Parts {
///     year, month, day, hour, minute, second, micros, precision, offset, year_set, month_set, day_set
/// } = parts;
/// ```
///
/// ```
/// use sorbilgan::{read, Parts};
///
/// let parts: Parts = read("YYYY-MM-DD HH24:MI:SS.FF3 TZH:TZM", "2024-02-29 21:05:00.5 +05:30")?;
/// assert_eq!((parts.year, parts.month, parts.day), (2024, 2, 29));
/// assert_eq!((parts.hour, parts.minute, parts.second, parts.micros), (21, 5, 0, 500_000));
/// assert_eq!(parts.precision, 3);
/// assert_eq!(parts.offset, Some(19_800));
/// # Ok::<(), sorbilgan::Refusal>(())
/// ```
#[derive(Debug, Clone, Copy, PartialEq, Eq, Hash)]
#[cfg_attr(feature = "serde", derive(serde::Serialize, serde::Deserialize))]
#[non_exhaustive]
pub struct Parts {
    /// The year; negative before year 0, which is 1 BC.
    pub year: i32,
    /// The month, from 1.
    pub month: i32,
    /// The day of the month, from 1.
    pub day: i32,
    /// The hour.
    pub hour: i32,
    /// The minute.
    pub minute: i32,
    /// The second.
    pub second: i32,
    /// The microsecond.
    pub micros: i32,
    /// The digits that `FF1` to `FF6` ask for; 0 without them. An instant is rounded to them, the microsecond here is
    /// not.
    pub precision: i32,
    /// The offset in seconds east, where there is one.
    pub offset: Option<i32>,
    /// Whether the year is set; if not, it is 0.
    #[cfg_attr(feature = "serde", serde(default))]
    pub year_set: bool,
    /// Whether the month is set; if not, it is 1.
    #[cfg_attr(feature = "serde", serde(default))]
    pub month_set: bool,
    /// Whether the day is set; if not, it is 1.
    #[cfg_attr(feature = "serde", serde(default))]
    pub day_set: bool,
}

impl Parts {
    /// What the library answers to an input that it accepts.
    pub(crate) fn answered(raw: PartsAnswer) -> Parts {
        Parts {
            year: raw.year as i32,
            month: raw.month as i32,
            day: raw.day as i32,
            hour: raw.hour as i32,
            minute: raw.minute as i32,
            second: raw.second as i32,
            micros: raw.micros as i32,
            precision: raw.precision as i32,
            offset: (raw.zoned != 0).then_some(raw.offset as i32),
            year_set: raw.marks & YEAR_SET != 0,
            month_set: raw.marks & MONTH_SET != 0,
            day_set: raw.marks & DAY_SET != 0,
        }
    }
}

/// The parts as which a moment is read back: without offset and precision, and with year, month and day set.
///
/// ```
/// use sorbilgan::{Moment, Parts};
///
/// let parts = Parts::from(Moment::midnight(2024, 2, 29));
/// assert_eq!((parts.year, parts.precision, parts.offset), (2024, 0, None));
/// assert!(parts.year_set && parts.month_set && parts.day_set);
/// ```
impl From<Moment> for Parts {
    fn from(moment: Moment) -> Parts {
        let Moment { year, month, day, hour, minute, second, micros } = moment;
        let [year_set, month_set, day_set] = [true; 3];
        let (precision, offset) = (0, None);
        Parts { year, month, day, hour, minute, second, micros, precision, offset, year_set, month_set, day_set }
    }
}
