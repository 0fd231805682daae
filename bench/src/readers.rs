//! Readers of an input's lines.

use crate::glibc;
use crate::inputs::{Input, Line};
use crate::peers::{INSTANT, Kind, PARTS, Peer, peer};
use chrono::format::{Item, Parsed, StrftimeItems};
use chrono::{NaiveDate, NaiveDateTime, NaiveTime};
use exports::archive::{self, NODES};
use oracle::answers::{measured, micros};
use time::format_description::{self, FormatItem};
use time::{Date, PrimitiveDateTime, Time};

pub fn all(input: &Input) -> Vec<Peer<'_>> {
    [library(input), ported(input), of_chrono(input), of_time(input), of_glibc(input)].into_iter().flatten().collect()
}

/// A reader that gives microseconds since 1970-01-01, or nothing.
pub fn reader<'a, T>(
    kind: Kind, name: &'static str, input: &'a Input, call: impl Fn(&Line) -> T + 'a,
    instant: impl Fn(T) -> Option<i64>,
) -> Peer<'a> {
    let wanted = input.lines.iter().map(|line| line.instant);
    peer(kind, name, input.lines.iter().collect(), move |line: &&Line| call(line), instant, wanted)
}

pub fn of_parts(words: archive::Parts) -> Option<i64> {
    (words[0] == 0).then(|| micros(&std::array::from_fn(|at| words[4 + at] as i32)))
}

fn of_value([number, .., value]: archive::Value) -> Option<i64> {
    (number == 0).then_some(value)
}

fn library(input: &Input) -> Vec<Peer<'_>> {
    let template = input.template.as_bytes();
    let mut nodes = [0; NODES];
    let length = archive::compile(template, &mut nodes) as usize;
    let parts = |line: &Line| {
        let mut out = [0; 15];
        archive::parts(template, line.text.as_bytes(), &mut out);
        out
    };
    let instant = |line: &Line| {
        let mut out = [0; 5];
        archive::instant(template, line.text.as_bytes(), &mut out);
        out
    };
    let parts_by = move |line: &Line| {
        let mut out = [0; 15];
        archive::parts_by(&nodes[..length], template, line.text.as_bytes(), &mut out);
        out
    };
    let instant_by = move |line: &Line| {
        let mut out = [0; 5];
        archive::instant_by(&nodes[..length], template, line.text.as_bytes(), &mut out);
        out
    };
    vec![
        reader(PARTS, "library", input, parts, of_parts),
        reader(INSTANT, "library", input, instant, of_value),
        reader(PARTS, "library, compiled once", input, parts_by, of_parts),
        reader(INSTANT, "library, compiled once", input, instant_by, of_value),
    ]
}

fn ported(input: &Input) -> Vec<Peer<'_>> {
    let parts = |line: &Line| measured::parts(&input.template, &line.text);
    let instant = |line: &Line| measured::instant(&input.template, &line.text);
    vec![
        reader(PARTS, "ported Rust", input, parts, |moment| moment.as_ref().map(micros)),
        reader(INSTANT, "ported Rust", input, instant, |instant| instant),
    ]
}

fn of_chrono(input: &Input) -> Vec<Peer<'_>> {
    let items: Vec<Item> = StrftimeItems::new(&input.chrono).collect();
    let at_midnight = |date: NaiveDate| date.and_time(NaiveTime::default());
    let each = move |line: &Line| {
        if input.clock {
            NaiveDateTime::parse_from_str(&line.text, &input.chrono).ok()
        } else {
            NaiveDate::parse_from_str(&line.text, &input.chrono).ok().map(at_midnight)
        }
    };
    let prepared = move |line: &Line| {
        let mut parsed = Parsed::new();
        chrono::format::parse(&mut parsed, &line.text, items.iter()).ok()?;
        if input.clock {
            parsed.to_naive_datetime_with_offset(0).ok()
        } else {
            parsed.to_naive_date().ok().map(at_midnight)
        }
    };
    let instant = |read: Option<NaiveDateTime>| read.map(|moment| moment.timestamp_micros());
    vec![
        reader(PARTS, "chrono", input, each, instant),
        reader(PARTS, "chrono, format prepared", input, prepared, instant),
    ]
}

fn of_time(input: &Input) -> Vec<Peer<'_>> {
    // the format lives as long as the program
    let format: &'static [FormatItem] = format_description::parse(String::leak(input.time.clone())).unwrap().leak();
    let prepared = move |line: &Line| {
        if input.clock {
            PrimitiveDateTime::parse(&line.text, &format).ok()
        } else {
            Date::parse(&line.text, &format).ok().map(|date| date.with_time(Time::MIDNIGHT))
        }
    };
    let instant =
        |read: Option<PrimitiveDateTime>| read.map(|moment| (moment.assume_utc().unix_timestamp_nanos() / 1000) as i64);
    vec![reader(PARTS, "time, format prepared", input, prepared, instant)]
}

fn of_glibc(input: &Input) -> Vec<Peer<'_>> {
    let Some(format) = &input.glibc else {
        return Vec::new();
    };
    let fields = |line: &Line| glibc::read(&line.c_text, format, input.fraction);
    let instant = move |line: &Line| fields(line).map(|(mut read, fraction)| glibc::micros(&mut read, fraction));
    vec![
        reader(PARTS, "strptime", input, fields, |read| {
            read.map(|(mut read, fraction)| glibc::micros(&mut read, fraction))
        }),
        reader(INSTANT, "strptime and timegm", input, instant, |instant| instant),
    ]
}
