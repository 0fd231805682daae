//! Every day of every month, without a year and in some, as the table that Python's calendar made has it
//! (tests/month_days.py): with the strict setting and without.

use sorbilgan::{date, instant, read, Moment, Parts, Refusal, Settings, Template};

const TABLE: &str = include_str!("../../../tests/month_days");

/// A template and a line for a year of the table, of which `-` is none.
fn asked(year: &str, month: i32, day: i32) -> (&'static str, String) {
    match year {
        "-" => ("MM-DD", format!("{month:02}-{day:02}")),
        _ => ("YYYY-MM-DD", format!("{year}-{month:02}-{day:02}")),
    }
}

/// The answer is accepted and has the day and its marks, or is refused with the number alone.
fn check(found: Result<Parts, Refusal>, number: u8, wanted: Parts, line: &str) {
    match found {
        Ok(parts) => assert_eq!((0, parts), (number, wanted), "{line}"),
        Err(refusal) => {
            assert_eq!((refusal.number(), refusal.pattern(), refusal.figures()), (number, None, [0, 0]), "{line}");
        }
    }
}

/// Instants and dates are refused as parts are, and an instant is that of the start of the date.
fn check_values(instant: Result<i64, Refusal>, date: Result<i32, Refusal>, number: u8, line: &str) {
    assert_eq!(instant.map(|micros| (micros / 86_400_000_000) as i32), date, "{line}");
    assert_eq!(date.map_or_else(|refusal| refusal.number(), |_| 0), number, "{line}");
}

/// One day in one year, by every function that reads and by both callers.
fn check_day(year: &str, month: i32, day: i32, answers: &str) {
    let (text, line) = asked(year, month, day);
    let year = year.parse().unwrap_or(0);
    let mut wanted = Parts::from(Moment::midnight(year, month, day));
    wanted.year_set = year != 0;
    let (lenient, strict) = answers.split_once('/').unwrap();
    check(read(text, &line), lenient.parse().unwrap(), wanted, &line);
    check_values(instant(text, &line), date(text, &line), lenient.parse().unwrap(), &line);
    for (is_strict, number) in [(false, lenient), (true, strict)] {
        for cards in [false, true] {
            let settings = Settings::new().strict(is_strict).cards(cards);
            let template = Template::compile_with(text, settings).unwrap();
            check(template.read(&line), number.parse().unwrap(), wanted, &line);
            check_values(template.instant(&line), template.date(&line), number.parse().unwrap(), &line);
        }
    }
}

#[test]
fn every_day() {
    let (comments, rows): (Vec<&str>, Vec<&str>) = TABLE.lines().partition(|line| line.starts_with('#'));
    let years: Vec<&str> = comments[1].strip_prefix("# month day ").unwrap().split(' ').collect();
    assert_eq!((years.len(), rows.len()), (6, 12 * 31));
    for row in rows {
        let mut words = row.split(' ');
        let mut number = || words.next().unwrap().parse().unwrap();
        let (month, day) = (number(), number());
        let answers: Vec<&str> = words.collect();
        assert_eq!(answers.len(), years.len(), "{row}");
        for (year, answers) in years.iter().zip(answers) {
            check_day(year, month, day, answers);
        }
    }
}
