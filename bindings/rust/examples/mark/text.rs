//! A mark as a line of three columns.

use crate::marks::Mark;
use crate::moment::shown;
use std::io::{self, Write};

const ENDS_EARLY: &str = "the line ends before the template does";

/// Writes the columns: the mark or the number of the refusal, what there is to say, and the line as it is.
pub fn write(out: &mut impl Write, mark: &Mark, line: &[u8]) -> io::Result<()> {
    match mark {
        Mark::Refused(refusal) => write!(out, "{}\t", refusal.number())?,
        _ => write!(out, "{}\t", mark.name())?,
    }
    match mark {
        Mark::Ok(parts) | Mark::Accepted(parts) => write!(out, "{}", shown(parts, ' '))?,
        Mark::Otherwise(_, text) => write!(out, "accepted, but spelled otherwise; expected {}", visible(text))?,
        Mark::Incomplete(_, None) => write!(out, "{ENDS_EARLY}")?,
        Mark::Incomplete(_, Some(text)) => write!(out, "{ENDS_EARLY}; what was read is written {}", visible(text))?,
        Mark::Refused(refusal) => write!(out, "{refusal}")?,
    }
    out.write_all(b"\t")?;
    out.write_all(line)?;
    out.write_all(b"\n")
}

/// The text of a template that has a TAB or a newline must not end the column or the line.
fn visible(text: &str) -> String {
    let escaped = |c: char| if c.is_control() { c.escape_default().to_string() } else { c.to_string() };
    text.chars().map(escaped).collect()
}
