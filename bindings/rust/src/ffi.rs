//! The functions of libsorbilgan.a, wrapped in safe ones. All unsafe code of the crate is here; `include/sorbilgan.h`
//! describes the functions.

#![allow(unsafe_code)]

use crate::{Cause, Moment, Refusal, Settings};
use sorbilgan_sys as sys;
use sorbilgan_sys::{PartsAnswer, Report, ValueAnswer, NAME, NODES};

// In every call below the functions are the library's, proved for all bytes, lengths and numbers, and what they are
// lent is lent for the call alone: slices with their own lengths, and an answer or buffer that nothing else holds.

/// An answer, which begins with a report.
pub trait Answer: Default {
    fn report(&self) -> &Report;
}

impl Answer for PartsAnswer {
    fn report(&self) -> &Report {
        &self.report
    }
}

impl Answer for ValueAnswer {
    fn report(&self) -> &Report {
        &self.report
    }
}

fn answered<A: Answer>(ask: impl FnOnce(*mut A) -> u8) -> Result<A, Refusal> {
    let mut answer = A::default();
    match ask(&raw mut answer) {
        0 => Ok(answer),
        number => Err(Refusal::reported(number, answer.report())),
    }
}

/// One of the answers to an input: by a template's text, or by its settings, nodes and text.
pub struct Reader<A> {
    text: unsafe extern "C" fn(*const u8, usize, *const u8, usize, *mut A) -> u8,
    nodes: unsafe extern "C" fn(u32, *const u8, usize, *const u8, usize, *const u8, usize, *mut A) -> u8,
}

pub const PARTS: Reader<PartsAnswer> = Reader { text: sys::sorbilgan_parts, nodes: sys::sorbilgan_parts_by_with };
/// Microseconds since 1970-01-01.
pub const INSTANT: Reader<ValueAnswer> = Reader { text: sys::sorbilgan_instant, nodes: sys::sorbilgan_instant_by_with };
/// Days since 1970-01-01.
pub const DATE: Reader<ValueAnswer> = Reader { text: sys::sorbilgan_date, nodes: sys::sorbilgan_date_by_with };

impl<A: Answer> Reader<A> {
    pub fn by_text(&self, template: &[u8], input: &[u8]) -> Result<A, Refusal> {
        // SAFETY: as said above.
        answered(|out| unsafe { (self.text)(template.as_ptr(), template.len(), input.as_ptr(), input.len(), out) })
    }

    pub fn by_nodes(&self, settings: Settings, nodes: &[u8], template: &[u8], input: &[u8]) -> Result<A, Refusal> {
        let (bits, c, t, s) = (settings.bits(), nodes.as_ptr(), template.as_ptr(), input.as_ptr());
        // SAFETY: as said above.
        answered(|out| unsafe { (self.nodes)(bits, c, nodes.len(), t, template.len(), s, input.len(), out) })
    }
}

fn length_of(answer: ValueAnswer) -> usize {
    answer.value as usize
}

/// The length of the text that is written.
pub fn write(template: &[u8], moment: &Moment, text: &mut [u8]) -> Result<usize, Refusal> {
    let &Moment { year, month, day, hour, minute, second, micros } = moment;
    let (t, t_length, room) = (template.as_ptr(), template.len(), text.len());
    let text = text.as_mut_ptr();
    // SAFETY: as said above.
    let answer = answered(|out| unsafe {
        sys::sorbilgan_write(t, t_length, year, month, day, hour, minute, second, micros, text, room, out)
    });
    answer.map(length_of)
}

/// The length of the text that is written by nodes.
pub fn write_by(
    settings: Settings, nodes: &[u8], template: &[u8], moment: &Moment, text: &mut [u8],
) -> Result<usize, Refusal> {
    let &Moment { year, month, day, hour, minute, second, micros } = moment;
    let (bits, c, c_length, t, t_length) =
        (settings.bits(), nodes.as_ptr(), nodes.len(), template.as_ptr(), template.len());
    let (room, text) = (text.len(), text.as_mut_ptr());
    // SAFETY: as said above.
    let answer = answered(|out| unsafe {
        sys::sorbilgan_write_by_with(
            bits, c, c_length, t, t_length, year, month, day, hour, minute, second, micros, text, room, out,
        )
    });
    answer.map(length_of)
}

/// The nodes of a template.
pub fn compile(settings: Settings, template: &[u8]) -> Result<Box<[u8]>, Refusal> {
    let mut nodes = [0; NODES];
    let (bits, t, t_length) = (settings.bits(), template.as_ptr(), template.len());
    // SAFETY: as said above.
    match unsafe { sys::sorbilgan_compile_with(bits, t, t_length, &raw mut nodes) } {
        -1 => Err(Refusal::alone(Cause::TooLong)),
        -2 => Err(Refusal::alone(Cause::NotUtf8)),
        length => Ok(nodes[..length as usize].into()),
    }
}

/// Whether an accent mark counts alone in the literals of a template.
pub fn has_lone_mark(nodes: &[u8], template: &[u8]) -> bool {
    let (c, t) = (nodes.as_ptr(), template.as_ptr());
    // SAFETY: as said above.
    unsafe { sys::sorbilgan_has_lone_mark(c, nodes.len(), t, template.len()) != 0 }
}

/// The name of the pattern at a place of the table.
pub fn pattern(place: u8) -> String {
    let mut name = [0; NAME];
    // SAFETY: as said above.
    let length = unsafe { sys::sorbilgan_pattern(place, &raw mut name) };
    name[..length].iter().copied().map(char::from).collect()
}

#[cfg(test)]
mod tests;
