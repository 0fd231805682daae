//! The answers for a template that is used once: it is compiled on the stack, at each call.

use crate::{ffi, Moment, Parts, Refusal, INPUT_LIMIT};

/// Reads the parts of an input, as [`Template::read`](crate::Template::read) does.
///
/// # Errors
///
/// The causes 1 to 16.
///
/// ```
/// let parts = sorbilgan::read("YYYY-MM-DD", "2024-02-29")?;
/// assert_eq!((parts.year, parts.month, parts.day), (2024, 2, 29));
/// # Ok::<(), sorbilgan::Refusal>(())
/// ```
pub fn read(template: impl AsRef<[u8]>, input: impl AsRef<[u8]>) -> Result<Parts, Refusal> {
    ffi::PARTS.by_text(template.as_ref(), input.as_ref()).map(Parts::answered)
}

/// Reads the instant of an input, as [`Template::instant`](crate::Template::instant) does.
///
/// # Errors
///
/// The causes 1 to 17.
///
/// ```
/// assert_eq!(sorbilgan::instant("YYYY-MM-DD HH24", "1970-01-01 01")?, 3_600_000_000);
/// # Ok::<(), sorbilgan::Refusal>(())
/// ```
pub fn instant(template: impl AsRef<[u8]>, input: impl AsRef<[u8]>) -> Result<i64, Refusal> {
    ffi::INSTANT.by_text(template.as_ref(), input.as_ref()).map(|answer| answer.value)
}

/// Reads the date of an input, as [`Template::date`](crate::Template::date) does.
///
/// # Errors
///
/// The causes 1 to 16, and 18.
///
/// ```
/// assert_eq!(sorbilgan::date("YYYY-MM-DD", "1970-01-02")?, 1);
/// # Ok::<(), sorbilgan::Refusal>(())
/// ```
pub fn date(template: impl AsRef<[u8]>, input: impl AsRef<[u8]>) -> Result<i32, Refusal> {
    ffi::DATE.by_text(template.as_ref(), input.as_ref()).map(|answer| answer.value as i32)
}

/// Writes a moment to the front of a buffer, as [`Template::write`](crate::Template::write) does.
///
/// # Errors
///
/// The causes 1, 2 and 19 to 21, in this order; the buffer then stays as it was.
///
/// ```
/// let mut buffer = [0; 16];
/// let length = sorbilgan::write("DD.MM.", &sorbilgan::Moment::midnight(2024, 2, 29), &mut buffer)?;
/// assert_eq!(&buffer[..length], b"29.02.");
/// # Ok::<(), sorbilgan::Refusal>(())
/// ```
pub fn write(template: impl AsRef<[u8]>, moment: &Moment, text: &mut [u8]) -> Result<usize, Refusal> {
    ffi::write(template.as_ref(), moment, text)
}

/// The text of a moment, as [`Template::format`](crate::Template::format) gives it.
///
/// # Errors
///
/// The causes 1, 2 and 19 to 21, in this order.
///
/// ```
/// let text = sorbilgan::format("DD.MM.YYYY", &sorbilgan::Moment::midnight(2024, 2, 29))?;
/// assert_eq!(text, "29.02.2024");
/// # Ok::<(), sorbilgan::Refusal>(())
/// ```
pub fn format(template: impl AsRef<[u8]>, moment: &Moment) -> Result<String, Refusal> {
    text_of(INPUT_LIMIT, |text| write(template, moment, text))
}

/// The text that is written to a buffer of the longest input, or of a smaller limit.
pub(crate) fn text_of(
    limit: usize, write: impl FnOnce(&mut [u8]) -> Result<usize, Refusal>,
) -> Result<String, Refusal> {
    let mut text = [0; INPUT_LIMIT];
    let length = write(&mut text[..limit])?;
    Ok(String::from_utf8(text[..length].to_vec()).expect("characters of a template in UTF-8, digits and words"))
}
