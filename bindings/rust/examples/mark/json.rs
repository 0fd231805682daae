//! A mark as an object of JSON, on a line of its own.

use crate::marks::Mark;
use crate::moment::shown;
use sorbilgan::{Parts, Refusal};
use std::io::{self, Write};

/// Writes the object. Bytes of the line that are not UTF-8 are U+FFFD in it.
pub fn write(out: &mut impl Write, mark: &Mark, line: &[u8]) -> io::Result<()> {
    let line = string(&String::from_utf8_lossy(line));
    let members = match mark {
        Mark::Ok(parts) | Mark::Accepted(parts) => read(parts, &line),
        Mark::Otherwise(parts, text) => format!(r#"{},"expected":{}"#, read(parts, &line), string(text)),
        Mark::Incomplete(parts, text) => format!(r#"{},"written":{}"#, read(parts, &line), or_null(text.as_deref())),
        Mark::Refused(refusal) => format!(r#"{},"line":{line}"#, refused(refusal)),
    };
    writeln!(out, r#"{{"mark":"{}",{members}}}"#, mark.name())
}

fn read(parts: &Parts, line: &str) -> String {
    format!(r#""line":{line},"moment":"{}""#, shown(parts, 'T'))
}

fn refused(refusal: &Refusal) -> String {
    let (number, cause, [first, second]) = (refusal.number(), refusal.cause(), refusal.figures());
    let (pattern, reason) = (or_null(refusal.pattern()), string(&refusal.to_string()));
    format!(
        r#""number":{number},"cause":"{cause:?}","pattern":{pattern},"figures":[{first},{second}],"reason":{reason}"#
    )
}

fn or_null(text: Option<&str>) -> String {
    text.map_or("null".into(), string)
}

/// A text in quotes. Control characters are escaped, and so are the separators of lines and paragraphs, which some
/// readers take for the end of a line.
pub fn string(text: &str) -> String {
    let mut quoted = String::from("\"");
    for c in text.chars() {
        match c {
            '"' | '\\' => quoted.extend(['\\', c]),
            _ if c.is_control() || "\u{2028}\u{2029}".contains(c) => quoted += &format!("\\u{:04x}", u32::from(c)),
            _ => quoted.push(c),
        }
    }
    quoted.push('"');
    quoted
}
