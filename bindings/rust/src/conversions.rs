//! What the conversions to and from other crates' types share.

use crate::{Moment, Parts, TryFromPartsError};
use std::error::Error;
use std::fmt;

/// A date and time that the other type has not, or that would lose digits or an offset.
///
/// ```
/// # #[cfg(feature = "chrono")] {
/// use sorbilgan::{ConversionError, Moment};
///
/// let error: ConversionError = chrono::NaiveDateTime::try_from(Moment::midnight(2023, 2, 29)).unwrap_err();
/// assert_eq!(error.to_string(), "no such date and time in the other type");
/// # }
/// ```
#[derive(Debug, Clone, Copy, PartialEq, Eq, Hash)]
pub struct ConversionError(());

impl fmt::Display for ConversionError {
    fn fmt(&self, f: &mut fmt::Formatter<'_>) -> fmt::Result {
        f.write_str("no such date and time in the other type")
    }
}

impl Error for ConversionError {}

impl From<TryFromPartsError> for ConversionError {
    fn from(_: TryFromPartsError) -> ConversionError {
        ConversionError(())
    }
}

/// What the other type has, if it has it.
pub(crate) fn found<T>(value: Option<T>) -> Result<T, ConversionError> {
    value.ok_or(ConversionError(()))
}

/// A number of a moment in the width of the other type.
pub(crate) fn narrow<T: TryFrom<i32>>(number: i32) -> Result<T, ConversionError> {
    found(T::try_from(number).ok())
}

/// Whole microseconds of a second.
pub(crate) fn micros(nanoseconds: u32) -> Result<i32, ConversionError> {
    let whole = nanoseconds % 1000 == 0 && nanoseconds < 1_000_000_000;
    found(whole.then_some((nanoseconds / 1000) as i32))
}

/// The moment without its offset, and the offset in seconds east; an input without one was read as UTC.
pub(crate) fn local(parts: Parts) -> Result<(Moment, i32), ConversionError> {
    Ok((Moment::try_from(Parts { offset: None, ..parts })?, parts.offset.unwrap_or(0)))
}
