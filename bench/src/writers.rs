//! Writers of an input's moments, into a buffer; the ported module makes a text of its own.

use crate::glibc::{self, Tm};
use crate::inputs::{Input, Line};
use crate::peers::{Peer, TEXT, peer};
use chrono::format::{Item, StrftimeItems};
use chrono::{NaiveDate, NaiveDateTime};
use exports::archive::{self, NODES};
use oracle::answers::{Moment, measured, micros};
use std::cell::RefCell;
use std::io::Write;
use std::rc::Rc;

const ROOM: usize = 512;

pub fn all(input: &Input) -> Vec<Peer<'_>> {
    if !input.written {
        return Vec::new();
    }
    [library(input), ported(input), of_chrono(input), of_glibc(input)].into_iter().flatten().collect()
}

fn each<'a, T: 'a>(input: &'a Input, of: impl Fn(&'a Line) -> T + 'a) -> Vec<T> {
    input.lines.iter().map(of).collect()
}

fn wanted(input: &Input) -> Vec<Vec<u8>> {
    each(input, |line| measured::written(&input.template, micros(&line.moment)).into())
}

/// A writer that puts its text into the buffer and gives the length.
fn writer<'a, M: 'a>(
    name: &'static str, input: &'a Input, moments: Vec<M>, call: impl Fn(&M, &mut [u8]) -> usize + 'a,
) -> Peer<'a> {
    let text = Rc::new(RefCell::new([0; ROOM]));
    let written = text.clone();
    let call = move |moment: &M| call(moment, &mut *text.borrow_mut());
    peer(TEXT, name, moments, call, |length| written.borrow()[..length].to_vec(), wanted(input))
}

fn library(input: &Input) -> Vec<Peer<'_>> {
    let template = input.template.as_bytes();
    let mut nodes = [0; NODES];
    let length = archive::compile(template, &mut nodes) as usize;
    let moments: Vec<Moment> = each(input, |line| line.moment);
    let write = |moment: &Moment, text: &mut [u8]| {
        let mut out = [0; 5];
        archive::write(template, moment, text, &mut out);
        out[4] as usize
    };
    let write_by = move |moment: &Moment, text: &mut [u8]| {
        let mut out = [0; 5];
        archive::write_by(&nodes[..length], template, moment, text, &mut out);
        out[4] as usize
    };
    vec![writer("library", input, moments.clone(), write), writer("library, compiled once", input, moments, write_by)]
}

fn ported(input: &Input) -> Vec<Peer<'_>> {
    let instants = each(input, |line| micros(&line.moment));
    let apart = instants.iter().copied().map(measured::written_apart).collect();
    let write = |instant: &i64| measured::written(&input.template, *instant);
    vec![
        peer(TEXT, "ported Rust", apart, |write| write(&input.template), String::into_bytes, wanted(input)),
        peer(TEXT, "ported Rust, with its calendar", instants, write, String::into_bytes, wanted(input)),
    ]
}

fn of_chrono(input: &Input) -> Vec<Peer<'_>> {
    let items: Vec<Item> = StrftimeItems::new(&input.chrono).collect();
    let moments = each(input, |line| {
        let [year, month, day, hour, minute, second, micros] = line.moment;
        let [month, day, hour, minute, second, micros] = [month, day, hour, minute, second, micros].map(|n| n as u32);
        NaiveDate::from_ymd_opt(year, month, day).unwrap().and_hms_micro_opt(hour, minute, second, micros).unwrap()
    });
    let write = move |moment: &NaiveDateTime, text: &mut [u8]| {
        let mut rest = &mut *text;
        write!(rest, "{}", moment.format_with_items(items.iter())).unwrap();
        let left = rest.len();
        text.len() - left
    };
    vec![writer("chrono, format prepared", input, moments, write)]
}

fn of_glibc(input: &Input) -> Vec<Peer<'_>> {
    let Some(format) = &input.glibc else {
        return Vec::new();
    };
    let moments = each(input, |line| (glibc::of_moment(&line.moment), line.moment[6]));
    let write = |(moment, micros): &(Tm, i32), text: &mut [u8]| {
        let length = glibc::write(moment, format, text);
        if input.fraction { length + glibc::write_fraction(*micros, &mut text[length..]) } else { length }
    };
    vec![writer("strftime", input, moments, write)]
}
