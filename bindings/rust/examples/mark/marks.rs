//! The mark of a line.

use crate::reach::reaches_end;
use sorbilgan::{Moment, Parts, Refusal, Template};

/// The mark of a line, with what was read.
#[derive(Debug, PartialEq)]
pub enum Mark {
    /// The line is the text that the template writes for what was read.
    Ok(Parts),
    /// It is accepted, but spelled otherwise: the expected text.
    Otherwise(Parts, String),
    /// It ends before the template does: what the template writes for what was read, if that can be written.
    Incomplete(Parts, Option<String>),
    /// It is accepted, and cannot be compared: the template or what was read cannot be written.
    Accepted(Parts),
    /// It is refused.
    Refused(Refusal),
}

impl Mark {
    /// The names of the marks, in the order in which they are counted.
    pub const NAMES: [&'static str; 5] = ["ok", "otherwise", "incomplete", "accepted", "refused"];

    /// Its place among the names.
    pub fn place(&self) -> usize {
        match self {
            Mark::Ok(..) => 0,
            Mark::Otherwise(..) => 1,
            Mark::Incomplete(..) => 2,
            Mark::Accepted(..) => 3,
            Mark::Refused(..) => 4,
        }
    }

    /// Its name.
    pub fn name(&self) -> &'static str {
        Mark::NAMES[self.place()]
    }
}

/// Marks a line.
pub fn mark(template: &Template, line: &[u8]) -> Mark {
    let parts = match template.read(line) {
        Ok(parts) => parts,
        Err(refusal) => return Mark::Refused(refusal),
    };
    match written(template, parts) {
        Some(text) if text.as_bytes() == line => Mark::Ok(parts),
        text if !reaches_end(template, line) => Mark::Incomplete(parts, text),
        Some(text) => Mark::Otherwise(parts, text),
        None => Mark::Accepted(parts),
    }
}

/// The refusal of a template that can write no moment. No text is shorter than that of a moment in May.
pub fn never_written(template: &Template) -> Option<Refusal> {
    template.format(&Moment::midnight(2000, 5, 1)).err()
}

/// What the template writes for what was read. Where no year is set, it is 0, which cannot be written: then it is the
/// text of any year, if the template writes the same for two leap years.
fn written(template: &Template, parts: Parts) -> Option<String> {
    let moment = Moment::try_from(parts).ok()?;
    if parts.year_set {
        return template.format(&moment).ok();
    }
    let [text, other] = [2000, 2004].map(|year| template.format(&Moment { year, ..moment }).ok());
    text.filter(|text| other.as_ref() == Some(text))
}
