//! The program as a whole: arguments, files, columns, counts, exit statuses, and streams that fail.

use super::answer;
use crate::options::HELP;
use crate::run;
use std::cell::RefCell;
use std::ffi::OsString;
use std::io::{self, Read, Write};
use std::os::unix::ffi::OsStringExt;
use std::{env, fs, process};

#[test]
fn columns_and_counts() {
    let input = b"29/02/2024 21:05\n29/2/2024 21:05\n29/02/2024\n29/02/2023 21:05\nhai\n29/02/2024 \xff";
    let answer = answer(&["DD/MM/YYYY HH24:MI"], input);
    let wanted = b"ok\t2024-02-29 21:05:00\t29/02/2024 21:05\n\
        otherwise\taccepted, but spelled otherwise; expected 29/02/2024 21:05\t29/2/2024 21:05\n\
        incomplete\tthe line ends before the template does; what was read is written 29/02/2024 00:00\t29/02/2024\n\
        15\tno such date or time\t29/02/2023 21:05\n\
        7\tno integer at DD\thai\n\
        2\tthe template or the input is not UTF-8\t29/02/2024 \xff\n";
    assert_eq!(answer.output, wanted);
    assert_eq!(answer.errors, "mark: 6 lines, 1 ok, 1 otherwise, 1 incomplete, 3 refused\n");
    assert_eq!(answer.status, 1);
}

#[test]
fn no_line_is_refused() {
    let answer = answer(&["YYYY-MM-DD"], "2024-2-9\n\n");
    assert_eq!((answer.status, &*answer.errors), (0, "mark: 2 lines, 1 otherwise, 1 incomplete\n"));
    let wanted = "otherwise\taccepted, but spelled otherwise; expected 2024-02-09\t2024-2-9\n\
        incomplete\tthe line ends before the template does\t\n";
    assert_eq!(answer.output(), wanted);
}

/// A line need not end; a carriage return before its end is no part of it, and only one is.
#[test]
fn ends_of_lines() {
    for (input, lines) in
        [("", "0 lines"), ("09", "1 line, 1 ok"), ("09\n", "1 line, 1 ok"), ("09\r\n09\r", "2 lines, 2 ok")]
    {
        let answer = answer(&["HH24"], input);
        assert_eq!((answer.status, answer.errors), (0, format!("mark: {lines}\n")), "{input:?}");
    }
    let answer = answer(&["HH24"], "09\r\n09\r\r\n");
    let wanted = "ok\t0000-01-01 09:00:00\t09\notherwise\taccepted, but spelled otherwise; expected 09\t09\r\n";
    assert_eq!(answer.output(), wanted);
}

/// Microseconds are shown where there are any, and an offset where one was read.
#[test]
fn moments_as_they_were_read() {
    for (template, line, shown) in [
        ("YYYY-MM-DD HH24:MI TZH", "2024-02-29 21:05 +07", "2024-02-29 21:05:00+07:00"),
        ("YYYY-MM-DD HH24:MI:SS.US TZH", "-44-03-15 12:00:00.5 -01", "-0043-03-15 12:00:00.500000-01:00"),
    ] {
        assert_eq!(answer(&[template], line).output(), format!("accepted\t{shown}\t{line}\n"));
    }
}

/// A TAB or newline of the template does not end the column.
#[test]
fn control_characters_of_the_template() {
    let answer = answer(&["DD\"\t\n\"MM"], "5");
    let text = "the line ends before the template does; what was read is written 05\\t\\n01";
    assert_eq!(answer.output(), format!("incomplete\t{text}\t5\n"));
}

#[test]
fn help() {
    for arguments in [&["--help"][..], &["--json", "--help"], &["--help", "--strict"], &["--accents", "--help"]] {
        let answer = answer(arguments, "2024\n");
        assert_eq!((answer.status, answer.output(), &*answer.errors), (0, HELP, ""), "{arguments:?}");
    }
    assert!(HELP.lines().all(|line| line.len() <= 120));
}

#[test]
fn wrong_usage() {
    for (arguments, why) in [
        (&[][..], "the template is missing"),
        (&["--json"], "the template is missing"),
        (&["--strict", "--json", "--accents"], "the template is missing"),
        (&["--"], "the template is missing"),
        (&["YYYY", "file", "more"], "there are more arguments than a template and a file"),
        (&["--xml", "YYYY"], "there is no option --xml; a template may begin with - after --"),
        (&["--strict", "--xml", "YYYY"], "there is no option --xml; a template may begin with - after --"),
        (&["-DD"], "there is no option -DD; a template may begin with - after --"),
    ] {
        let answer = answer(arguments, "2024\n");
        let usage = "usage: mark [--accents] [--json] [--strict] TEMPLATE [FILE]; mark --help explains it";
        let wanted = format!("mark: {why}\n{usage}\n");
        assert_eq!((answer.status, answer.output(), &answer.errors), (2, "", &wanted), "{arguments:?}");
    }
}

/// The day is refused by the option alone, wherever it is given; all else is marked as without it.
#[test]
fn strict() {
    let lines = "29.02\n30.02\n31.4\n30.2\n";
    let lenient = answer(&["DD.MM"], lines);
    let wanted = "ok\t0000-02-29 00:00:00\t29.02\n\
        accepted\t0000-02-30 00:00:00\t30.02\n\
        accepted\t0000-04-31 00:00:00\t31.4\n\
        accepted\t0000-02-30 00:00:00\t30.2\n";
    assert_eq!((lenient.status, lenient.output()), (0, wanted));

    let wanted = "ok\t0000-02-29 00:00:00\t29.02\n\
        25\ta day that its month never has\t30.02\n\
        25\ta day that its month never has\t31.4\n\
        25\ta day that its month never has\t30.2\n";
    for arguments in [["--strict", "DD.MM"], ["DD.MM", "--strict"]] {
        let strict = answer(&arguments, lines);
        assert_eq!((strict.status, strict.output()), (1, wanted));
        assert_eq!(strict.errors, "mark: 4 lines, 1 ok, 3 refused\n");
    }
    for lines in ["29.02.2024\n9.2.2024\n30.02.2024\n", "30\n"] {
        let [lenient, strict] = [&["DD.MM.YYYY"][..], &["--strict", "DD.MM.YYYY"]].map(|words| answer(words, lines));
        assert_eq!((lenient.status, lenient.output()), (strict.status, strict.output()));
    }
}

/// A letter that is typed as several characters is one by the option alone, wherever it is given; the line is then
/// spelled otherwise. All else is marked as without it.
#[test]
fn accents() {
    let template = r#""thứ"DD.MM"#;
    let [composed, typed, more] = ["thứ05.03", "thu\u{31b}\u{301}05.03", "thu\u{31b}\u{301}"];
    let lines = [composed, typed, more].map(|line| format!("{line}\n")).concat();
    let ok = format!("ok\t0000-03-05 00:00:00\t{composed}\n");
    let early = "incomplete\tthe line ends before the template does; what was read is written thứ01.01\t";
    let each = answer(&[template], &lines);
    let refused = [typed, more].map(|line| format!("7\tno integer at DD\t{line}\n")).concat();
    assert_eq!((each.status, each.output()), (1, &*format!("{ok}{refused}")));

    let otherwise = format!("otherwise\taccepted, but spelled otherwise; expected {composed}\t{typed}\n");
    for arguments in [["--accents", template], [template, "--accents"]] {
        let accents = answer(&arguments, &lines);
        assert_eq!((accents.status, accents.output()), (0, &*format!("{ok}{otherwise}{early}{more}\n")));
        assert_eq!(accents.errors, "mark: 3 lines, 1 ok, 1 otherwise, 1 incomplete\n");
    }
    // both options at once
    let both = answer(&["--strict", "--accents", template], "thu\u{31b}\u{301}30.02\nthứ29.02\n");
    let never = "25\ta day that its month never has\tthu\u{31b}\u{301}30.02\n";
    assert_eq!(both.output(), format!("{never}ok\t0000-02-29 00:00:00\tthứ29.02\n"));
}

#[test]
fn options_end_where_two_hyphens_are() {
    let json = "{\"mark\":\"ok\",\"line\":\"-05\",\"moment\":\"0000-01-05T00:00:00\"}\n";
    assert_eq!(answer(&["--json", "--", "-DD"], "-05\n").output(), json);
    assert_eq!(answer(&["--", "-DD"], "-05\n").output(), "ok\t0000-01-05 00:00:00\t-05\n");
    assert_eq!(answer(&["--", "--help"], "--help\n").output(), "ok\t0000-01-01 00:00:00\t--help\n");
    assert_eq!(answer(&["--", "--"], "--\n").output(), "ok\t0000-01-01 00:00:00\t--\n");
    // one hyphen is no option, and options may come last
    assert_eq!(answer(&["-", "--json"], "-\n").output(), json.replace("05", "01").replace("-01\",", "-\","));
}

#[test]
fn a_template_that_is_refused() {
    let long = answer(&[&"x".repeat(257)], "2024\n");
    let wanted = "mark: the template is over 256 bytes, or the input over 512 (flash cards: 64 and 96)\n";
    assert_eq!((long.status, long.output(), &*long.errors), (2, "", wanted));

    let mut errors = Vec::new();
    let arguments = [OsString::from_vec(b"YYYY\xff".to_vec())];
    assert_eq!(run(&arguments, &b"2024\n"[..], Broken, &mut errors), 2);
    assert_eq!(errors, b"mark: the template or the input is not UTF-8\n");
}

#[test]
fn files() {
    let path = env::temp_dir().join(format!("mark-{}", process::id()));
    let file = path.to_str().unwrap();
    let missing = answer(&["YYYY", file], "2024\n");
    assert_eq!((missing.status, missing.output()), (2, ""));
    assert!(missing.errors.starts_with(&format!("mark: {file}: No such file")), "{}", missing.errors);

    fs::write(&path, "2024\r\n").unwrap();
    let found = answer(&["YYYY", file], "not read\n");
    fs::remove_file(&path).unwrap();
    assert_eq!((found.status, found.output()), (0, "ok\t2024-01-01 00:00:00\t2024\n"));

    // a folder is opened, and cannot be read
    let folder = env!("CARGO_MANIFEST_DIR");
    let unread = answer(&["YYYY", folder], "");
    assert_eq!((unread.status, unread.output()), (2, ""));
    assert!(unread.errors.starts_with(&format!("mark: {folder}: ")), "{}", unread.errors);
}

/// Fails whatever is asked of it.
struct Broken;

impl Read for Broken {
    fn read(&mut self, _: &mut [u8]) -> io::Result<usize> {
        Err(io::Error::other("broken"))
    }
}

impl Write for Broken {
    fn write(&mut self, _: &[u8]) -> io::Result<usize> {
        Err(io::Error::other("broken"))
    }

    fn flush(&mut self) -> io::Result<()> {
        Ok(())
    }
}

#[test]
fn streams_that_fail() {
    let mut errors = Vec::new();
    for arguments in ["YYYY", "--help"].map(OsString::from) {
        assert_eq!(run(&[arguments], &b"2024\n"[..], Broken, &mut errors), 2);
    }
    assert_eq!(run(&["YYYY".into()], Broken, io::sink(), &mut errors), 2);
    let output = "mark: standard output: broken\n".repeat(2);
    assert_eq!(String::from_utf8(errors).unwrap(), output + "mark: standard input: broken\n");
    // without standard error the status is the same
    assert_eq!(run(&["YYYY".into()], &b"2024\nhai\n"[..], io::sink(), Broken), 1);
}

/// Lines that arrive in pieces. Each time more is read, it notes how much of the output was written.
struct Slow<'a> {
    pieces: Vec<&'a str>,
    output: &'a RefCell<Vec<u8>>,
    written: &'a mut Vec<usize>,
}

impl Read for Slow<'_> {
    fn read(&mut self, buffer: &mut [u8]) -> io::Result<usize> {
        self.written.push(self.output.borrow().len());
        if self.pieces.is_empty() {
            return Ok(0);
        }
        self.pieces.remove(0).as_bytes().read(buffer)
    }
}

struct Shared<'a>(&'a RefCell<Vec<u8>>);

impl Write for Shared<'_> {
    fn write(&mut self, bytes: &[u8]) -> io::Result<usize> {
        self.0.borrow_mut().write(bytes)
    }

    fn flush(&mut self) -> io::Result<()> {
        Ok(())
    }
}

#[test]
fn marks_are_written_before_more_is_awaited() {
    let (output, mut written) = (RefCell::default(), Vec::new());
    let input = Slow { pieces: vec!["2024\n2025\n20", "26\n"], output: &output, written: &mut written };
    assert_eq!(run(&["YYYY".into()], input, Shared(&output), io::sink()), 0);
    let line = "ok\t2024-01-01 00:00:00\t2024\n".len();
    assert_eq!(written, [0, 2 * line, 3 * line]);
}
