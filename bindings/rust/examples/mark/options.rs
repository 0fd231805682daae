//! What is asked for on the command line.

use sorbilgan::Settings;
use std::ffi::{OsStr, OsString};
use std::os::unix::ffi::OsStrExt;
use std::path::Path;

/// What `--help` writes.
pub const HELP: &str = "\
usage: mark [--accents] [--json] [--strict] TEMPLATE [FILE]

Marks each line of FILE, or of standard input, by TEMPLATE. It writes a line for each, with a TAB between three
columns: the mark, what there is to say about it, and the line as it is.

  ok          the line is the text that the template writes for what was read; the date and time follow
  otherwise   the line is accepted, but spelled otherwise; the expected text follows
  incomplete  the line ends before the template does; what the template writes for what was read follows, if that can
              be written: what is missing in the line has its default there
  accepted    the line is accepted, and cannot be compared, because the template or what was read cannot be written;
              the date and time follow
  a number    the line is refused; the number is that of the cause, and the reason follows

At the end the counts are on standard error.

  --accents   counts a letter with its accents as one character; this is the option for languages with accents, whose
              letters a keyboard may send as one character or as several. A line with other characters than the
              template's is then read all the same, and it is spelled otherwise
  --json      writes an object of JSON for each line: mark, line, moment (by ISO 8601; the year is 0000 if none was
              read), and expected or, if it is incomplete, written; for a refused line mark, number, cause, pattern,
              figures, reason and line
  --strict    refuses a day that its month never has, such as 30 February, where the line has a month and a day and no
              year; this is the option for exercises without a year, and 29 February is accepted
  --help      writes this
  --          ends the options, so a template may begin with -

The exit status is 0 if no line is refused and 1 if one is. It is 2 if the arguments are wrong, the template is refused,
the file cannot be read or the output cannot be written.
";

/// How the marks are written.
#[derive(Debug, Clone, Copy, PartialEq)]
pub enum Form {
    Text,
    Json,
}

/// What is asked for. Without a file, the lines are those of standard input.
#[derive(Debug, PartialEq)]
pub enum Request<'a> {
    Help,
    Mark { form: Form, settings: Settings, template: &'a OsStr, file: Option<&'a OsStr> },
}

/// The options beside `--help`.
const OPTIONS: [&str; 3] = ["--accents", "--json", "--strict"];

/// What the arguments ask for, or what is wrong with them.
pub fn request(arguments: &[OsString]) -> Result<Request<'_>, String> {
    let end = arguments.iter().position(|argument| argument == "--").unwrap_or(arguments.len());
    let (options, mut others): (Vec<&OsStr>, Vec<&OsStr>) =
        arguments[..end].iter().map(OsString::as_os_str).partition(|argument| is_option(argument));
    others.extend(arguments.iter().skip(end + 1).map(OsString::as_os_str));

    let is_given = |name: &str| options.iter().any(|option| *option == name);
    if is_given("--help") {
        return Ok(Request::Help);
    }
    if let Some(unknown) = options.iter().find(|option| !OPTIONS.iter().any(|known| **option == *known)) {
        let unknown = Path::new(unknown).display();
        return Err(usage(&format!("there is no option {unknown}; a template may begin with - after --")));
    }
    let form = if is_given("--json") { Form::Json } else { Form::Text };
    let settings = Settings::new().accents(is_given("--accents")).strict(is_given("--strict"));
    match others[..] {
        [template] => Ok(Request::Mark { form, settings, template, file: None }),
        [template, file] => Ok(Request::Mark { form, settings, template, file: Some(file) }),
        [] => Err(usage("the template is missing")),
        _ => Err(usage("there are more arguments than a template and a file")),
    }
}

fn is_option(argument: &OsStr) -> bool {
    argument.len() > 1 && argument.as_bytes().starts_with(b"-")
}

fn usage(wrong: &str) -> String {
    format!("{wrong}\nusage: mark [--accents] [--json] [--strict] TEMPLATE [FILE]; mark --help explains it")
}
