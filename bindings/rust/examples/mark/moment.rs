//! What was read, as a date and time.

use sorbilgan::Parts;

/// The date and time by ISO 8601, with microseconds where there are any, and the offset where one was read. A year
/// that is not of four digits has a sign. The separator is between date and time.
pub fn shown(p: &Parts, separator: char) -> String {
    let year = if (0..=9999).contains(&p.year) { format!("{:04}", p.year) } else { format!("{:+05}", p.year) };
    let mut text =
        format!("{year}-{:02}-{:02}{separator}{:02}:{:02}:{:02}", p.month, p.day, p.hour, p.minute, p.second);
    if p.micros != 0 {
        text += &format!(".{:06}", p.micros);
    }
    if let Some(seconds) = p.offset {
        let minutes = seconds.abs() / 60;
        text += &format!("{}{:02}:{:02}", if seconds < 0 { '-' } else { '+' }, minutes / 60, minutes % 60);
    }
    text
}
