//! The module's own functions on texts that are known to be UTF-8, for measurements.

use super::writing::Moment;
use super::*;

/// The moment that is read.
pub fn parts(template: &str, input: &str) -> Option<Moment> {
    let TimestampParts { tm, fsec, .. } = to_timestamp_parts(input, template).ok()?;
    Some([tm.year, tm.mon, tm.mday, tm.hour, tm.min, tm.sec, fsec])
}

/// Its microseconds since 1970-01-01.
pub fn instant(template: &str, input: &str) -> Option<i64> {
    reading::to_instant(input, template).ok()
}

/// The text of a count of microseconds since 1970-01-01.
pub fn written(template: &str, micros: i64) -> String {
    writing::to_char(template, micros)
}

/// The same for a moment that is taken apart beforehand: the calendar by which the module does it is a stand-in.
pub fn written_apart(micros: i64) -> impl Fn(&str) -> String {
    let (moment, fraction) = tm_from_wall(micros);
    move |template| {
        let text = datetime_to_char(&moment, fraction, None, template, false);
        text.expect("a date pattern writes every timestamp").unwrap_or_default()
    }
}
