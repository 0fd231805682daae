//! The program is run in memory: its arguments and input are given, its status, output and errors are compared.

mod json;
mod marks;
mod program;
mod readme;

use crate::run;
use std::ffi::OsString;

/// The exit status, standard output and standard error.
struct Answer {
    status: u8,
    output: Vec<u8>,
    errors: String,
}

impl Answer {
    fn output(&self) -> &str {
        std::str::from_utf8(&self.output).unwrap()
    }
}

fn answer(arguments: &[&str], input: impl AsRef<[u8]>) -> Answer {
    let arguments: Vec<OsString> = arguments.iter().map(OsString::from).collect();
    let (mut output, mut errors) = (Vec::new(), Vec::new());
    let status = run(&arguments, input.as_ref(), &mut output, &mut errors);
    Answer { status, output, errors: String::from_utf8(errors).unwrap() }
}
