use std::error::Error;
use std::fmt;

/// Why a line, a template or a moment is refused.
///
/// What a [`Refusal`](crate::Refusal) has beside its cause is said at each: its pattern, and its figures in their
/// order.
///
/// ```
/// use sorbilgan::{read, Cause};
///
/// let refusal = read("HH12:MI", "13:30").unwrap_err();
/// let hint = match refusal.cause() {
///     Cause::HourOfTwelve => "Hours go from 1 to 12 here.",
///     Cause::Short | Cause::Narrow => "A digit is missing.",
///     _ => "This is not a time.",
/// };
/// assert_eq!(hint, "Hours go from 1 to 12 here.");
/// ```
///
/// Later versions may have more, so a `match` needs a last arm:
///
/// ```compile_fail,E0004
/// use sorbilgan::{read, Cause};
///
/// match read("HH12:MI", "13:30").unwrap_err().cause() {
///     Cause::TooLong | Cause::NotUtf8 | Cause::MixedDates | Cause::Conflict | Cause::Short | Cause::Narrow => (),
///     Cause::NotInteger | Cause::OutOfRange | Cause::NoWord | Cause::NotTwoNumbers | Cause::YearOutOfRange => (),
///     Cause::ZoneLetter | Cause::HourOfTwelve | Cause::NoYear | Cause::FieldOverflow | Cause::OffsetRange => (),
///     Cause::InstantRange | Cause::DateRange | Cause::NotWritten | Cause::NoMoment | Cause::NoRoom => (),
///     Cause::NoSuchDay => (),
/// }
/// ```
#[derive(Debug, Clone, Copy, PartialEq, Eq, PartialOrd, Ord, Hash)]
#[non_exhaustive]
#[cfg_attr(feature = "serde", derive(serde::Serialize, serde::Deserialize), serde(into = "u8", try_from = "u8"))]
#[repr(u8)]
pub enum Cause {
    /// The template is over 256 bytes, or the input over 512; on flash cards over 64 and 96.
    TooLong = 1,
    /// The template or the input is not UTF-8.
    NotUtf8 = 2,
    /// Gregorian and ISO week patterns are mixed: the pattern.
    MixedDates = 3,
    /// A field was set before, to another value: the pattern.
    Conflict = 4,
    /// The input ends within a number of fixed width: the pattern, the width, the bytes that are left.
    Short = 5,
    /// A number of fixed width has fewer digits: the pattern, the width, the bytes that are a number.
    Narrow = 6,
    /// There is no integer: the pattern.
    NotInteger = 7,
    /// A number is outside signed 32 bits: the pattern.
    OutOfRange = 8,
    /// None of the pattern's words is there: the pattern.
    NoWord = 9,
    /// `Y,YYY` does not find both its numbers: the pattern.
    NotTwoNumbers = 10,
    /// The year of `Y,YYY` is outside signed 32 bits: the pattern.
    YearOutOfRange = 11,
    /// A letter is where `TZ` or `tz` reads an offset: the pattern.
    ZoneLetter = 12,
    /// The hour of a 12-hour clock is outside 1 to 12: the hour.
    HourOfTwelve = 13,
    /// There is a day of the year, and no year.
    NoYear = 14,
    /// A field is out of its range, or its month has no such day.
    FieldOverflow = 15,
    /// The hours of the offset are outside 0 to 15, or its minutes outside 0 to 59.
    OffsetRange = 16,
    /// The instant is outside 64 bits, or at one of their ends.
    InstantRange = 17,
    /// The day is outside 32 bits, or at one of their ends.
    DateRange = 18,
    /// The pattern is not written, or only with another prefix or suffix, or none: the pattern.
    NotWritten = 19,
    /// The seven numbers are no moment of the years 1 to 9999.
    NoMoment = 20,
    /// The text is longer than its buffer: the length needed.
    NoRoom = 21,
    /// With [`Settings::strict`](crate::Settings::strict): there are month and day without a year, and the month never
    /// has that day.
    NoSuchDay = 25,
}

impl Cause {
    /// Every cause, in the order of the numbers, which have gaps. Later versions may have more.
    ///
    /// ```
    /// use sorbilgan::Cause;
    ///
    /// assert_eq!(Cause::ALL[0], Cause::TooLong);
    /// assert!(Cause::ALL.iter().map(|cause| cause.number()).eq((1..=21).chain([25])));
    /// ```
    pub const ALL: &'static [Cause] = &[
        Cause::TooLong,
        Cause::NotUtf8,
        Cause::MixedDates,
        Cause::Conflict,
        Cause::Short,
        Cause::Narrow,
        Cause::NotInteger,
        Cause::OutOfRange,
        Cause::NoWord,
        Cause::NotTwoNumbers,
        Cause::YearOutOfRange,
        Cause::ZoneLetter,
        Cause::HourOfTwelve,
        Cause::NoYear,
        Cause::FieldOverflow,
        Cause::OffsetRange,
        Cause::InstantRange,
        Cause::DateRange,
        Cause::NotWritten,
        Cause::NoMoment,
        Cause::NoRoom,
        Cause::NoSuchDay,
    ];

    /// The number by which the cause is known, from 1.
    ///
    /// ```
    /// assert_eq!(sorbilgan::Cause::FieldOverflow.number(), 15);
    /// ```
    #[must_use]
    pub const fn number(self) -> u8 {
        self as u8
    }
}

/// The cause in the words of the README's table of refusals. [`Refusal`](crate::Refusal) has a whole sentence.
///
/// ```
/// assert_eq!(sorbilgan::Cause::NotInteger.to_string(), "no integer");
/// ```
impl fmt::Display for Cause {
    fn fmt(&self, f: &mut fmt::Formatter<'_>) -> fmt::Result {
        f.pad(match self {
            Cause::TooLong => "template over 256 bytes or input over 512 (flash cards: 64 and 96)",
            Cause::NotUtf8 => "template or input is not UTF-8",
            Cause::MixedDates => "Gregorian and ISO patterns mixed",
            Cause::Conflict => "field set before to another value",
            Cause::Short => "input shorter than a fixed width",
            Cause::Narrow => "fewer bytes parsed than a fixed width",
            Cause::NotInteger => "no integer",
            Cause::OutOfRange => "number outside signed 32 bits",
            Cause::NoWord => "none of the listed words",
            Cause::NotTwoNumbers => "Y,YYY without both numbers",
            Cause::YearOutOfRange => "Y,YYY outside 32 bits",
            Cause::ZoneLetter => "a letter at TZ or tz",
            Cause::HourOfTwelve => "12-hour clock, hour outside 1 to 12",
            Cause::NoYear => "day of the year, and no year",
            Cause::FieldOverflow => "field value overflow",
            Cause::OffsetRange => "offset hours outside 0 to 15 or minutes outside 0 to 59",
            Cause::InstantRange => "instant: outside 64 bits, or at one of their ends",
            Cause::DateRange => "date: outside 32 bits, or at one of their ends",
            Cause::NotWritten => "write: a pattern that is not written",
            Cause::NoMoment => "write: no moment of the years 1 to 9999",
            Cause::NoRoom => "write: a text longer than its buffer",
            Cause::NoSuchDay => "strict: month and day without a year, and the month never has that day",
        })
    }
}

/// The number of a cause.
impl From<Cause> for u8 {
    fn from(cause: Cause) -> u8 {
        cause.number()
    }
}

/// The cause of a number, as the line program and C have it.
///
/// ```
/// use sorbilgan::Cause;
///
/// assert_eq!(Cause::try_from(15), Ok(Cause::FieldOverflow));
/// assert_eq!(Cause::try_from(25), Ok(Cause::NoSuchDay));
/// assert_eq!(Cause::try_from(0).unwrap_err().to_string(), "no refusal has the number 0");
/// ```
impl TryFrom<u8> for Cause {
    type Error = TryFromNumberError;

    fn try_from(number: u8) -> Result<Cause, TryFromNumberError> {
        let cause = Cause::ALL.iter().find(|cause| cause.number() == number);
        cause.copied().ok_or(TryFromNumberError(number))
    }
}

/// No refusal of this version has the number.
///
/// ```
/// use sorbilgan::{Cause, TryFromNumberError};
///
/// let error: TryFromNumberError = Cause::try_from(255).unwrap_err();
/// assert_eq!(error.to_string(), "no refusal has the number 255");
/// ```
#[derive(Debug, Clone, Copy, PartialEq, Eq, Hash)]
pub struct TryFromNumberError(u8);

impl fmt::Display for TryFromNumberError {
    fn fmt(&self, f: &mut fmt::Formatter<'_>) -> fmt::Result {
        write!(f, "no refusal has the number {}", self.0)
    }
}

impl Error for TryFromNumberError {}
