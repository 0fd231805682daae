//! The library in both character modes: readers of the parts, by the same exports with other settings.

use crate::inputs::{Input, Line};
use crate::peers::{MODES, Peer};
use crate::readers::{of_parts, reader};
use exports::archive::{self, ACCENTS, NODES};

const OLD: [&str; 2] = ["library, old mode", "library, old mode, compiled once"];
const NEW: [&str; 2] = ["library, new mode", "library, new mode, compiled once"];

pub fn all(input: &Input) -> Vec<Peer<'_>> {
    in_mode(input, 0, OLD).into_iter().chain(in_mode(input, ACCENTS, NEW)).collect()
}

fn in_mode<'a>(input: &'a Input, settings: u32, [each, once]: [&'static str; 2]) -> Vec<Peer<'a>> {
    let (with, template) = (Some(settings), input.template.as_bytes());
    let mut nodes = [0; NODES];
    let length = archive::compile_with(with, template, &mut nodes) as usize;
    let parts = move |line: &Line| {
        let mut out = [0; 15];
        archive::parts_with(with, template, line.text.as_bytes(), &mut out);
        out
    };
    let parts_by = move |line: &Line| {
        let mut out = [0; 15];
        archive::parts_by_with(with, &nodes[..length], template, line.text.as_bytes(), &mut out);
        out
    };
    vec![reader(MODES, each, input, parts, of_parts), reader(MODES, once, input, parts_by, of_parts)]
}
