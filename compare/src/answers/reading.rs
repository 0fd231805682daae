//! The numbered answers to a template and an input: what the module reads, or a refusal told from the text of its
//! error.

use super::marks::{Noted, noted};
use super::*;
use std::fmt;

/// A caller's limits of a template and an input, in bytes.
#[derive(Clone, Copy)]
pub struct Limits {
    pub template: usize,
    pub input: usize,
}

impl Limits {
    /// Those of the exercise pages, by which all answers here are given.
    pub const PAGES: Limits = Limits { template: 256, input: 512 };
    /// Those of the flash cards.
    pub const CARDS: Limits = Limits { template: 64, input: 96 };

    /// Whether neither is too long.
    pub fn hold(&self, template: &[u8], input: &[u8]) -> bool {
        template.len() <= self.template && input.len() <= self.input
    }
}

/// The answer of the line program to one line, "template TAB input", where `answer` answers a template and an input.
pub fn line(line: &[u8], answer: impl Fn(&[u8], &[u8]) -> String) -> String {
    if line.len() > Limits::PAGES.template + 1 + Limits::PAGES.input {
        return Refusal::plain(1).to_string();
    }
    let (template, input) = cut(line);
    answer(template, input)
}

/// Where a moment is written, a carriage return at the line's end is no part of it.
pub fn without_return(line: &[u8]) -> &[u8] {
    line.strip_suffix(b"\r").unwrap_or(line)
}

/// The template and the input of a line: cut at the first TAB; without one the input is empty.
pub fn cut(line: &[u8]) -> (&[u8], &[u8]) {
    let tab = line.iter().position(|&byte| byte == b'\t');
    tab.map_or((line, &[]), |at| (&line[..at], &line[at + 1..]))
}

/// What was asked for, or why there is none.
pub type Answer<T> = std::result::Result<T, Refusal>;

/// 0, then year, month, day, hour, minute, second, microseconds, precision, offset or `none`, marks; or a refusal.
pub fn parts(template: &[u8], input: &[u8]) -> String {
    let reading = read(template, input, to_timestamp_parts);
    let marks = reading.marks();
    shown(reading.answer, |parts| {
        let TimestampParts { tm, fsec, fprec, tz_east } = parts;
        let date = format!("{} {} {}", tm.year, tm.mon, tm.mday);
        let time = format!("{} {} {} {fsec}", tm.hour, tm.min, tm.sec);
        let offset = tz_east.map_or("none".to_string(), |east| east.to_string());
        format!("{date} {time} {fprec} {offset} {marks}")
    })
}

/// 0, then microseconds since 1970-01-01, a text without an offset read as UTC; or a refusal.
pub fn instant(template: &[u8], input: &[u8]) -> String {
    shown(read(template, input, to_instant).answer, |micros| micros.to_string())
}

/// 0, then days since 1970-01-01; or a refusal.
pub fn date(template: &[u8], input: &[u8]) -> String {
    shown(read(template, input, to_date_text).answer, |days| days.to_string())
}

pub fn to_instant(input: &str, template: &str) -> Result<i64> {
    to_timestamp_text(input, template, &ZoneRef::Fixed(0), &mut Meter)
}

pub fn shown<T>(answer: Answer<T>, accepted: impl Fn(T) -> String) -> String {
    answer.map_or_else(|refusal| refusal.to_string(), |value| format!("0 {}", accepted(value)))
}

/// What is read with the strict switch off, and what the module noted of its date.
pub struct Reading<T> {
    pub answer: Answer<T>,
    noted: Option<Noted>,
}

impl<T> Reading<T> {
    pub fn marks(&self) -> u8 {
        self.noted.map_or(0, |noted| noted.marks)
    }

    /// Whether the switch refuses it, whatever comes after the check of the date.
    pub fn is_never(&self) -> bool {
        self.noted.is_some_and(|noted| noted.is_never())
    }
}

pub fn read<T>(template: &[u8], input: &[u8], by: impl Fn(&str, &str) -> Result<T>) -> Reading<T> {
    let refused = |number| Reading { answer: Err(Refusal::plain(number)), noted: None };
    if !Limits::PAGES.hold(template, input) {
        return refused(1);
    }
    let (Ok(template), Ok(input)) = (std::str::from_utf8(template), std::str::from_utf8(input)) else {
        return refused(2);
    };
    let (read, noted) = noted(|| by(input, template));
    Reading { answer: read.map_err(|error| refusal(&error, template, input)), noted }
}

/// A refusal: its number, the pattern as the template spells it, two figures.
pub struct Refusal {
    pub number: u8,
    pub pattern: Option<String>,
    pub figures: [i64; 2],
}

impl Refusal {
    pub fn plain(number: u8) -> Refusal {
        Refusal { number, pattern: None, figures: [0, 0] }
    }
}

impl fmt::Display for Refusal {
    fn fmt(&self, f: &mut fmt::Formatter) -> fmt::Result {
        let [first, second] = self.figures;
        write!(f, "{} {} {first} {second}", self.number, self.pattern.as_deref().unwrap_or("-"))
    }
}

/// How the error's message and its detail begin, for each refusal; an empty detail is none.
const ERRORS: [(u8, &str, &str); 16] = [
    (3, "invalid combination of date conventions", ""),
    (4, "conflicting values for ", "This value contradicts a previous setting "),
    (5, "source string too short for ", "Field requires "),
    (6, "invalid value ", "Field requires "),
    (7, "invalid value ", "Value must be an integer."),
    (8, "value for ", "Value must be in the range "),
    (9, "invalid value ", "The given value did not match any "),
    (10, "invalid value ", ""),
    (11, "value for ", ""),
    (12, "time zone abbreviations are not supported ", ""),
    (13, "hour ", ""),
    (14, "cannot calculate day of year ", ""),
    (15, "date/time field value out of range", ""),
    (16, "time zone displacement out of range", ""),
    (17, "timestamp out of range", ""),
    (18, "date out of range", ""),
];

fn refusal(error: &EngineError, template: &str, input: &str) -> Refusal {
    let detail = error.detail.as_deref().unwrap_or_default();
    let begins = |(_, message, of_detail): &&(u8, &str, &str)| {
        error.message.starts_with(message) && detail.starts_with(of_detail) && detail.is_empty() == of_detail.is_empty()
    };
    let known = ERRORS.iter().find(begins);
    let (number, ..) = *known.unwrap_or_else(|| panic!("an unknown error: {error:?}"));
    // the last word in quotes: the input may stand in quotes before it
    let quoted = error.message.rsplit('"').nth(1).unwrap_or_default();
    let pattern = match number {
        3 | 10 | 11 | 12 => Some(stopped_at(error, template, input).to_string()),
        4..=9 => Some(quoted.to_string()),
        _ => None,
    };
    let figures = match number {
        5 | 6 => {
            let mut numbers = detail.split(|c: char| !c.is_ascii_digit()).filter_map(|n| n.parse().ok());
            [numbers.next().unwrap(), numbers.next().unwrap()]
        }
        13 => [super::number(quoted), 0],
        _ => [0, 0],
    };
    Refusal { number, pattern, figures }
}

/// The pattern at which reading stopped, where the error does not name it as the template spells it: the last one of
/// the shortest beginning of the node list that gives the same error. These refusals do not depend on the node that
/// follows.
fn stopped_at(error: &EngineError, template: &str, input: &str) -> &'static str {
    let nodes = parse(template.as_bytes());
    let (end, nodes) = nodes.split_last().unwrap();
    let stops = |count: &usize| {
        let begun = [&nodes[..*count], &[*end]].concat();
        dch_from_char(&begun, input.as_bytes(), &mut TmFromChar::default()).as_ref() == Err(error)
    };
    let count = (1..=nodes.len()).find(stops).expect("the whole list gives the error");
    nodes[count - 1].key().name
}
