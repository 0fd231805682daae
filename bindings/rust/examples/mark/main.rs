//! Marks learners' lines by a template. `mark --help` explains it, and README.md shows it.
//!
//! ```text
//! mark [--accents] [--json] [--strict] TEMPLATE [FILE]
//! ```

mod count;
mod json;
mod lines;
mod marks;
mod moment;
mod options;
mod reach;
mod text;

#[cfg(test)]
mod tests;

use lines::Source;
use options::{Request, HELP};
use sorbilgan::Template;
use std::env;
use std::error::Error;
use std::ffi::{OsStr, OsString};
use std::fmt::Display;
use std::fs::File;
use std::io::{self, Read, Write};
use std::os::unix::ffi::OsStrExt;
use std::path::Path;
use std::process::ExitCode;

/// The exit statuses: no line is refused; one is; the work could not be done, or not all of it.
const FINE: u8 = 0;
const REFUSED: u8 = 1;
const FAILED: u8 = 2;

fn main() -> ExitCode {
    let arguments: Vec<_> = env::args_os().skip(1).collect();
    ExitCode::from(run(&arguments, io::stdin().lock(), io::stdout().lock(), io::stderr()))
}

/// The whole program: takes its arguments and standard streams, answers its exit status.
fn run(arguments: &[OsString], input: impl Read, output: impl Write, mut errors: impl Write) -> u8 {
    answered(arguments, input, output, &mut errors).unwrap_or_else(|why| {
        say(&mut errors, &*why);
        FAILED
    })
}

/// If standard error cannot be written, the exit status still has the outcome.
fn say(errors: &mut impl Write, what: impl Display) {
    let _ = writeln!(errors, "mark: {what}");
}

fn answered(
    arguments: &[OsString], input: impl Read, mut output: impl Write, errors: &mut impl Write,
) -> Result<u8, Box<dyn Error>> {
    let (form, settings, template, file) = match options::request(arguments)? {
        Request::Help => {
            output.write_all(HELP.as_bytes()).and_then(|()| output.flush()).map_err(lines::output_failed)?;
            return Ok(FINE);
        }
        Request::Mark { form, settings, template, file } => (form, settings, template, file),
    };
    let template = Template::compile_with(template.as_bytes(), settings)?;
    let source = opened(file, input)?;
    if let Some(refusal) = marks::never_written(&template) {
        say(errors, format_args!("{refusal}; so the lines are read, and not compared"));
    }
    let count = lines::marked(&template, form, source, output)?;
    say(errors, &count);
    Ok(if count.refused() > 0 { REFUSED } else { FINE })
}

/// The file, or standard input where there is none.
fn opened<'a>(file: Option<&OsStr>, input: impl Read + 'a) -> Result<Source<'a>, String> {
    let Some(file) = file else { return Ok(Source { name: "standard input".into(), bytes: Box::new(input) }) };
    let name = Path::new(file).display().to_string();
    match File::open(file) {
        Ok(file) => Ok(Source { name, bytes: Box::new(file) }),
        Err(why) => Err(format!("{name}: {why}")),
    }
}
