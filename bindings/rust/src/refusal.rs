use crate::{ffi, Cause};
use sorbilgan_sys::{Report, NO_PATTERN};
use std::error::Error;
use std::fmt;
use std::sync::LazyLock;

/// The names of the library's own table, asked for once.
static NAMES: LazyLock<Vec<String>> = LazyLock::new(|| (0..NO_PATTERN).map(ffi::pattern).collect());

/// What was refused: the cause, the pattern at which it was met, and two figures.
///
/// Its text is a sentence for whoever wrote the template; for learners, [`Cause`] is there to be matched on.
///
/// ```
/// use sorbilgan::{read, Cause, Refusal};
///
/// let refusal: Refusal = read("YYYYMMDD", "20242").unwrap_err();
/// assert_eq!(refusal.number(), 5);
/// assert_eq!(refusal.cause(), Cause::Short);
/// assert_eq!(refusal.pattern(), Some("MM"));
/// assert_eq!(refusal.figures(), [2, 1]);
/// assert_eq!(refusal.to_string(), "MM takes 2 bytes, and the input has 1 left");
/// ```
#[derive(Debug, Clone, Copy, PartialEq, Eq, PartialOrd, Ord, Hash)]
#[cfg_attr(feature = "serde", derive(serde::Serialize))]
pub struct Refusal {
    #[cfg_attr(feature = "serde", serde(rename = "number"))]
    cause: Cause,
    pattern: Option<&'static str>,
    figures: [i64; 2],
}

impl Refusal {
    /// By the report of the library. Its version is this crate's, or it would not link; so its numbers are the causes'.
    pub(crate) fn reported(number: u8, report: &Report) -> Refusal {
        let cause = Cause::try_from(number).expect("the numbers of this crate's version");
        let pattern = NAMES.get(report.pattern as usize).map(String::as_str);
        Refusal { cause, pattern, figures: [report.first_figure, report.second_figure] }
    }

    /// A cause that has neither pattern nor figures.
    pub(crate) fn alone(cause: Cause) -> Refusal {
        Refusal { cause, pattern: None, figures: [0, 0] }
    }

    /// The number of the cause.
    ///
    /// ```
    /// assert_eq!(sorbilgan::read("YYYY-MM-DD", "2023-02-29").unwrap_err().number(), 15);
    /// ```
    #[must_use]
    pub const fn number(&self) -> u8 {
        self.cause.number()
    }

    /// The cause.
    ///
    /// ```
    /// use sorbilgan::{read, Cause};
    ///
    /// assert_eq!(read("YYYY-MM-DD", "2023-02-29").unwrap_err().cause(), Cause::FieldOverflow);
    /// ```
    #[must_use]
    pub const fn cause(&self) -> Cause {
        self.cause
    }

    /// The pattern at which it was met, as templates spell it; `None` where the cause has none.
    ///
    /// ```
    /// use sorbilgan::read;
    ///
    /// assert_eq!(read("DD Month", "5 Thermidor").unwrap_err().pattern(), Some("Month"));
    /// assert_eq!(read("HH12", "13").unwrap_err().pattern(), None);
    /// ```
    #[must_use]
    pub const fn pattern(&self) -> Option<&'static str> {
        self.pattern
    }

    /// The cause's figures, as [`Cause`] describes them; 0 where it has fewer than two.
    ///
    /// ```
    /// use sorbilgan::read;
    ///
    /// assert_eq!(read("HH12", "13").unwrap_err().figures(), [13, 0]);
    /// ```
    #[must_use]
    pub const fn figures(&self) -> [i64; 2] {
        self.figures
    }
}

impl fmt::Display for Refusal {
    fn fmt(&self, f: &mut fmt::Formatter<'_>) -> fmt::Result {
        let pattern = self.pattern.unwrap_or("-");
        let [first, second] = self.figures;
        match self.cause {
            Cause::TooLong => {
                write!(f, "the template is over 256 bytes, or the input over 512 (flash cards: 64 and 96)")
            }
            Cause::NotUtf8 => write!(f, "the template or the input is not UTF-8"),
            Cause::MixedDates => write!(f, "{pattern} mixes calendar dates with ISO weeks"),
            Cause::Conflict => write!(f, "{pattern} differs from what was read before"),
            Cause::Short => write!(f, "{pattern} takes {first} bytes, and the input has {second} left"),
            Cause::Narrow => write!(f, "{pattern} takes {first} digits, and the number has {second}"),
            Cause::NotInteger => write!(f, "no integer at {pattern}"),
            Cause::OutOfRange => write!(f, "a number outside 32 bits at {pattern}"),
            Cause::NoWord => write!(f, "no word that {pattern} knows"),
            Cause::NotTwoNumbers => write!(f, "no two numbers with a comma at {pattern}"),
            Cause::YearOutOfRange => write!(f, "a year outside 32 bits at {pattern}"),
            Cause::ZoneLetter => write!(f, "a letter where {pattern} reads an offset"),
            Cause::HourOfTwelve => write!(f, "hour {first} on a 12-hour clock"),
            Cause::NoYear => write!(f, "a day of the year without a year"),
            Cause::FieldOverflow => write!(f, "no such date or time"),
            Cause::OffsetRange => write!(f, "an offset of more than 15 hours or 59 minutes"),
            Cause::InstantRange => write!(f, "an instant outside 64 bits"),
            Cause::DateRange => write!(f, "a date outside 32 bits"),
            Cause::NotWritten => {
                write!(f, "{pattern} cannot be written, or only with another prefix or suffix, or none")
            }
            Cause::NoMoment => write!(f, "no moment of the years 1 to 9999"),
            Cause::NoRoom => write!(f, "the text needs {first} bytes"),
            Cause::NoSuchDay => write!(f, "a day that its month never has"),
        }
    }
}

impl Error for Refusal {}
