//! The mark of a line.

use super::answer;
use crate::marks::{mark, Mark};
use crate::reach::closing;
use sorbilgan::{format, Cause, Moment, Settings, Template, INPUT_LIMIT};

/// The mark's name, and the text that goes with it.
fn marked(template: &str, line: impl AsRef<[u8]>) -> (&'static str, Option<String>) {
    marked_with(Settings::new(), template, line)
}

fn marked_with(settings: Settings, template: &str, line: impl AsRef<[u8]>) -> (&'static str, Option<String>) {
    let mark = mark(&Template::compile_with(template, settings).unwrap(), line.as_ref());
    let name = mark.name();
    match mark {
        Mark::Otherwise(_, text) => (name, Some(text)),
        Mark::Incomplete(_, text) => (name, text),
        _ => (name, None),
    }
}

fn alone(name: &str) -> (&str, Option<String>) {
    (name, None)
}

fn with<'a>(name: &'a str, text: &str) -> (&'a str, Option<String>) {
    (name, Some(text.to_string()))
}

#[test]
fn only_the_written_text_is_ok() {
    let template = r#""ngày "DD" tháng "MM" năm "YYYY"#;
    assert_eq!(marked(template, "ngày 05 tháng 03 năm 2024"), alone("ok"));
    for line in [
        "ngày 5 tháng 3 năm 2024",
        "Ngày 05 tháng 03 năm 2024",
        "day: 05 month 03 yea 2024",
        " ngày 05 tháng 03 năm 2024",
        "ngày 05 tháng 03 năm 2024 ",
        "ngày 05 tháng 03 năm 2024 and more",
    ] {
        assert_eq!(marked(template, line), with("otherwise", "ngày 05 tháng 03 năm 2024"), "{line}");
    }
    assert_eq!(marked("DD FMMonth YYYY", "05 May 2024"), alone("ok"));
    assert_eq!(marked("DD FMMonth YYYY", "05 MAY 2024"), with("otherwise", "05 May 2024"));
    assert_eq!(marked("HH12:MI am", "09:05 PM"), with("otherwise", "09:05 pm"));
    assert_eq!(marked("YYYY-MM-DD", "24-2-9"), with("otherwise", "0024-02-09"));
}

#[test]
fn a_line_that_is_refused() {
    let template = Template::compile("YYYYMMDD").unwrap();
    let Mark::Refused(refusal) = mark(&template, b"20242") else { panic!("it is accepted") };
    assert_eq!((refusal.cause(), refusal.pattern(), refusal.figures()), (Cause::Short, Some("MM"), [2, 1]));
    assert_eq!(marked("YYYY", b"\xff"), alone("refused"));
}

/// The year does not matter where the template does not write it, and then all days of a leap year are there.
#[test]
fn without_a_year() {
    assert_eq!(marked("MM-DD", "02-29"), alone("ok"));
    assert_eq!(marked("MM-DD", "2-29"), with("otherwise", "02-29"));
    assert_eq!(marked("MM-DD", "02-30"), alone("accepted"));
    assert_eq!(marked("HH24:MI", "21:05"), alone("ok"));
    // the week of a day depends on the year
    assert_eq!(marked("IW-ID", "10-3"), alone("accepted"));
}

#[test]
fn what_cannot_be_written_is_accepted() {
    for (template, line) in [
        ("YYYY-MM-DD", "0000-01-01"),
        ("YYYY-MM-DD", "10000-01-01"),
        ("DD Month YYYY", "05 March 2024"),
        ("HH24:MI TZH", "21:05 +07"),
        ("SS.FF3", "05.123"),
        ("DDth", "5th"),
    ] {
        assert_eq!(marked(template, line), alone("accepted"), "{template}: {line}");
    }
}

#[test]
fn a_pattern_is_not_reached() {
    for (template, line) in [
        ("YYYY-MM-DD", ""),
        (r#""ngày "DD" tháng "MM" năm "YYYY"#, "ngày 05 tháng 03"),
        (r#""ngày "DD" tháng "MM" năm "YYYY"#, "ngày 05 tháng 03 nă"),
        ("DD Month YYYY", "5 March"),
        ("DDth Month", "5th"),
        ("DDth Month", "5"),
        ("YYYY RM", "2024"),
        ("HH24:MI TZH", "21:05"),
        ("HH24 TZH:TZM", "21 +07"),
        ("FXDD/MM/YYYY", "05/03"),
        ("DD/MM FXYYYY", "05/03"),
    ] {
        assert_eq!(marked(template, line), alone("incomplete"), "{template}: {line}");
    }
    assert_eq!(marked("YYYY-MM-DD", "2024"), with("incomplete", "2024-01-01"));
    assert_eq!(marked("YYYYMMDD", "202402"), with("incomplete", "20240201"));
    assert_eq!(marked("MM-DD", "02"), with("incomplete", "02-01"));
    assert_eq!(marked("HH24:MI", "9"), with("incomplete", "09:00"));
    assert_eq!(marked("HH12 am", "09"), with("incomplete", "09 am"));
}

#[test]
fn all_patterns_are_reached() {
    for (template, line) in [
        ("YYYY RM", "2024 xi"),
        ("DDth", "5th"),
        ("DDth", "5 x"),
        (r#"DD Month" giờ""#, "5 March giờ"),
        (r#"DD Month" giờ""#, "5 March ngày"),
        ("DD Month.", "5 March."),
        ("DD MonthFX", "5 March"),
        ("YYYY BC", "44 BC"),
        ("TZH", "+07"),
        ("OF", "+07"),
        ("OF", "+07:30"),
        ("Y,YYY", "2,024"),
        ("Day", "MONDAY"),
        ("FXMonth DD", "March 05"),
        ("DD MonthFX", "05 March"),
        ("J", "2460370"),
    ] {
        assert_eq!(marked(template, line), alone("accepted"), "{template}: {line}");
    }
}

#[test]
fn the_last_literal_is_missing() {
    assert_eq!(marked(r#"HH24" giờ""#, "09 giờ"), alone("ok"));
    for line in ["09", "09 ", "09 g", "09 gi", "9", "9 gi", "9-gi"] {
        assert_eq!(marked(r#"HH24" giờ""#, line), with("incomplete", "09 giờ"), "{line}");
    }
    for line in ["9 giờ", "09 giò", "09-giờ", "09 giờ and more", "09 giờAM", "9 giờ BC"] {
        assert_eq!(marked(r#"HH24" giờ""#, line), with("otherwise", "09 giờ"), "{line}");
    }
    assert_eq!(marked(r#""giờ""#, ""), with("incomplete", "giờ"));
    assert_eq!(marked("DD.MM.", "5.3"), with("incomplete", "05.03."));
    assert_eq!(marked("DD.MM.", "5.3 "), with("incomplete", "05.03."));
    assert_eq!(marked("DD.MM.", "5.3-"), with("otherwise", "05.03."));
    // a template that cannot be written, and the letters of a suffix
    for (template, line) in [(r#"DD Month" giờ""#, "5 March"), ("DD Month.", "5 March"), ("DDth", "5"), ("DDth", "5t")]
    {
        assert_eq!(marked(template, line), alone("incomplete"), "{template}: {line}");
    }
    // spaces that are skipped after a number pay for literals
    assert_eq!(marked(r#"HH24"   ""#, "9   "), with("otherwise", "09   "));
}

/// With accents a line reaches the end of a template that has more characters, and not of one that has more letters.
#[test]
fn the_last_letter_has_accents() {
    let typed = |line: &str| line.replace('ờ', "o\u{31b}\u{300}");
    let accents = Settings::new().accents(true);
    for template in [r#"HH24" giờ""#, r#"HH24" giờ"#, r#"HH24 "giờ""#].map(typed) {
        let text = typed("09 giờ");
        assert_eq!(marked_with(accents, &template, &text), alone("ok"), "{template}");
        assert_eq!(marked_with(accents, &template, "09 giờ"), with("otherwise", &text), "{template}");
        assert_eq!(marked_with(accents, &template, "09 gi"), with("incomplete", &text), "{template}");
        assert_eq!(marked(&template, "09 giờ"), with("incomplete", &text), "{template}");
    }
}

/// Quotes that do not end, and quotes and backslashes that are characters.
#[test]
fn the_last_quotes() {
    for (template, ends) in [
        ("DD", ""),
        (r#""a"DD"#, ""),
        (r#""aDD"#, "\""),
        (r#"DD""#, "\""),
        (r#"DD\""#, ""),
        (r"DD\", ""),
        (r#"\""a"#, "\""),
        (r#""a\""#, "\""),
        (r#""a\\""#, ""),
        (r#""a\"#, "\\\""),
    ] {
        assert_eq!(closing(template), ends, "{template}");
    }
    assert_eq!(marked(r#"HH24" giờ"#, "9"), with("incomplete", "09 giờ"));
    assert_eq!(marked(r#"HH24" giờ"#, "9 giờ"), with("otherwise", "09 giờ"));
    assert_eq!(marked(r#"HH24"\"#, "9"), with("incomplete", r"09\"));
    assert_eq!(marked(r#"HH24"\"#, r"9\"), with("otherwise", r"09\"));
    assert_eq!(marked(r#"HH24\"""#, r#"9"""#), with("otherwise", "09\""));
}

/// A number that is there, with fewer digits than are written.
#[test]
fn the_last_digits_are_missing() {
    assert_eq!(marked("SS.US", "05.5"), with("otherwise", "05.500000"));
    assert_eq!(marked("HH24:MI", "21:0"), with("otherwise", "21:00"));
    assert_eq!(marked("SSSSS", "0"), with("otherwise", "00000"));
    assert_eq!(marked("HH24:MI", "21:"), with("incomplete", "21:00"));
}

#[test]
fn an_empty_template() {
    assert_eq!(marked("", ""), alone("ok"));
    assert_eq!(marked("", "abc"), with("otherwise", ""));
}

/// The longest run of literals before a pattern; and lines and templates that have no room for more.
#[test]
fn limits() {
    let template = format!("DD{}MM", "x".repeat(252));
    assert_eq!(marked(&template, "5").0, "incomplete");
    let spaces = |count| " ".repeat(count) + "05";
    assert_eq!(marked("DDxxxMM", spaces(INPUT_LIMIT - 3)).0, "incomplete");
    assert_eq!(marked("DDxxxMM", spaces(INPUT_LIMIT - 2)).0, "otherwise");
    assert_eq!(marked("DDMM", spaces(INPUT_LIMIT - 3)).0, "incomplete");
    // without room for a pattern after the template: its own patterns are missed, and not its last literals
    let literals = |count| format!("DD{}", "x".repeat(count));
    assert_eq!(marked(&literals(252), "5").0, "incomplete");
    assert_eq!(marked(&literals(253), "5").0, "otherwise");
    assert_eq!(marked(&template, spaces(INPUT_LIMIT - 255)).0, "incomplete");
    assert_eq!(marked(&template, spaces(INPUT_LIMIT - 254)).0, "otherwise");
    assert_eq!(marked("DD", spaces(INPUT_LIMIT - 2)), with("otherwise", "05"));
    assert_eq!(marked("DD", spaces(INPUT_LIMIT - 1)), alone("refused"));
}

/// It is said once that a template cannot be written: a pattern cannot, or the text is always too long.
#[test]
fn a_template_that_cannot_be_written() {
    let said = |template: &str| {
        let refusal = format(template, &Moment::midnight(2024, 5, 1)).unwrap_err();
        format!("mark: {refusal}; so the lines are read, and not compared\n")
    };
    let named = answer(&["DD Month YYYY"], "5 March 2024\n5 March 2024\n");
    let accepted = "accepted\t2024-03-05 00:00:00\t5 March 2024\n";
    assert_eq!((named.status, named.output()), (0, &*accepted.repeat(2)));
    assert_eq!(named.errors, said("DD Month YYYY") + "mark: 2 lines, 2 accepted\n");

    let long = "US".repeat(86);
    assert_eq!(answer(&[&long], "").errors, said(&long) + "mark: 0 lines\n");
    // too long in all months but May
    assert_eq!(answer(&[&("US".repeat(84) + "FMMonthxxxxx")], "").errors, "mark: 0 lines\n");
}
