//! The lines, marked one after another.

use crate::count::Count;
use crate::marks::mark;
use crate::options::Form;
use crate::{json, text};
use sorbilgan::Template;
use std::io::{self, BufRead, BufReader, BufWriter, Read, Write};

/// Where lines are read from, and its name.
pub struct Source<'a> {
    pub name: String,
    pub bytes: Box<dyn Read + 'a>,
}

/// Marks all lines. The marks of the lines that have arrived are written before it waits for more.
pub fn marked(template: &Template, form: Form, source: Source<'_>, output: impl Write) -> Result<Count, String> {
    let input_failed = |why: io::Error| format!("{}: {why}", source.name);
    let (mut input, mut output) = (BufReader::new(source.bytes), BufWriter::new(output));
    let mut count = Count::default();
    let mut line = Vec::new();
    loop {
        if !input.buffer().contains(&b'\n') {
            output.flush().map_err(output_failed)?;
        }
        line.clear();
        if input.read_until(b'\n', &mut line).map_err(input_failed)? == 0 {
            return Ok(count);
        }
        let line = without_end(&line);
        let mark = mark(template, line);
        count.add(&mark);
        match form {
            Form::Text => text::write(&mut output, &mark, line),
            Form::Json => json::write(&mut output, &mark, line),
        }
        .map_err(output_failed)?;
    }
}

/// What is said where standard output fails.
pub fn output_failed(why: io::Error) -> String {
    format!("standard output: {why}")
}

/// The line without its newline, and without the carriage return before it.
fn without_end(line: &[u8]) -> &[u8] {
    let line = line.strip_suffix(b"\n").unwrap_or(line);
    line.strip_suffix(b"\r").unwrap_or(line)
}
