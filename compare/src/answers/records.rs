//! The same answers as records of 64-bit words, as the library's exports fill them.

use super::reading::{Answer, Limits, Reading, Refusal, read, to_instant};
use super::writing::{Moment, attempt};
use super::*;
use crate::modes::{Switched, Written};

/// Number, pattern, first and second figure; then the values, which are 0 where the answer is a refusal.
fn record<const WORDS: usize>(answer: Answer<Vec<i64>>) -> [i64; WORDS] {
    let mut words = [0; WORDS];
    let place = |name: String| DCH_KEYWORDS.iter().position(|key| key.name == name).expect("a pattern of the table");
    match answer {
        Ok(values) => {
            words[1] = DCH_KEYWORDS.len() as i64;
            words[4..].copy_from_slice(&values);
        }
        Err(refusal) => {
            words[0] = refusal.number.into();
            words[1] = refusal.pattern.map_or(DCH_KEYWORDS.len(), place) as i64;
            words[2..4].copy_from_slice(&refusal.figures);
        }
    }
    words
}

/// The answer to a caller of its own limits: within them the same, else refusal 1, which comes before all others.
pub fn limited<const WORDS: usize>(within: bool, answer: [i64; WORDS]) -> [i64; WORDS] {
    if within { answer } else { record(Err(Refusal::plain(1))) }
}

fn switched<T, const WORDS: usize>(reading: Reading<T>, values: impl FnOnce(T, u8) -> Vec<i64>) -> Switched<WORDS> {
    let (marks, is_never) = (reading.marks(), reading.is_never());
    let off = record(reading.answer.map(|read| values(read, marks)));
    Switched { off, on: if is_never { record(Err(Refusal::plain(25))) } else { off } }
}

/// The values are the nine parts, with a flag before the offset, and the marks.
pub fn parts(template: &[u8], input: &[u8]) -> Switched<15> {
    switched(read(template, input, to_timestamp_parts), |TimestampParts { tm, fsec, fprec, tz_east }, marks| {
        let numbers = [tm.year, tm.mon, tm.mday, tm.hour, tm.min, tm.sec, fsec, fprec, tz_east.is_some().into()];
        numbers.into_iter().map(i64::from).chain([tz_east.unwrap_or(0), marks.into()]).collect()
    })
}

pub fn instant(template: &[u8], input: &[u8]) -> Switched<5> {
    switched(read(template, input, to_instant), |micros, _| vec![micros])
}

pub fn date(template: &[u8], input: &[u8]) -> Switched<5> {
    switched(read(template, input, to_date_text), |days, _| vec![days.into()])
}

/// The value is the length of the text, which comes with it: empty where the answer is a refusal.
pub fn written(template: &[u8], moment: &Moment, room: usize) -> Written {
    let answer = attempt(template, Some(*moment), room);
    let text = answer.as_ref().cloned().unwrap_or_default();
    (record(answer.map(|text| vec![text.len() as i64])), text)
}

/// The number of nodes of a template; -1 over its limit, -2 where it is not UTF-8.
pub fn compiled(template: &[u8]) -> i64 {
    if template.len() > Limits::PAGES.template {
        -1
    } else if std::str::from_utf8(template).is_err() {
        -2
    } else {
        parse(template).len() as i64 - 1
    }
}

/// The name of a pattern by its number; empty after the last.
pub fn pattern(place: u8) -> &'static str {
    DCH_KEYWORDS.get(usize::from(place)).map_or("", |key| key.name)
}
