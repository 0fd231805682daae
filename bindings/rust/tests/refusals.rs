//! Each cause once, with its number, pattern, figures and sentence.

use sorbilgan::{date, instant, read, write, Cause, Moment, Refusal, Settings, Template};
use std::error::Error;

const LEAP_DAY: Moment = Moment::midnight(2024, 2, 29);

fn written(template: &str, moment: Moment) -> Result<(), Refusal> {
    write(template, &moment, &mut [0; 9]).map(drop)
}

fn parts(template: &str, input: &str) -> Result<(), Refusal> {
    read(template, input).map(drop)
}

fn strictly(template: &str, input: &str) -> Result<(), Refusal> {
    Template::compile_with(template, Settings::new().strict(true))?.read(input).map(drop)
}

#[test]
fn every_cause() {
    let none = (None, [0, 0]);
    let at = |pattern| (Some(pattern), [0, 0]);
    let no_leap_day = Moment { year: 2023, ..LEAP_DAY };
    let cases = [
        (
            parts(&"-".repeat(257), ""),
            none,
            "the template is over 256 bytes, or the input over 512 (flash cards: 64 and 96)",
        ),
        (read("YYYY", b"2024\xff").map(drop), none, "the template or the input is not UTF-8"),
        (parts("IYYY-MM", "2024-05"), at("MM"), "MM mixes calendar dates with ISO weeks"),
        (parts("Day Dy", "Monday Mon"), at("Dy"), "Dy differs from what was read before"),
        (parts("YYYYMMDD", "20242"), (Some("MM"), [2, 1]), "MM takes 2 bytes, and the input has 1 left"),
        (parts("YYYYMMDD", "20242x"), (Some("MM"), [2, 1]), "MM takes 2 digits, and the number has 1"),
        (parts("DD", "x"), at("DD"), "no integer at DD"),
        (parts("YYYY", "2147483648"), at("YYYY"), "a number outside 32 bits at YYYY"),
        (parts("Month", "Thermidor"), at("Month"), "no word that Month knows"),
        (parts("Y,YYY", "2024"), at("Y,YYY"), "no two numbers with a comma at Y,YYY"),
        (parts("Y,YYY", "2147483,648"), at("Y,YYY"), "a year outside 32 bits at Y,YYY"),
        (parts("tz", "a"), at("tz"), "a letter where tz reads an offset"),
        (parts("HH12", "13"), (None, [13, 0]), "hour 13 on a 12-hour clock"),
        (parts("DDD", "60"), none, "a day of the year without a year"),
        (parts("YYYY-MM-DD", "2023-02-29"), none, "no such date or time"),
        (parts("OF", "+16"), none, "an offset of more than 15 hours or 59 minutes"),
        (instant("YYYY", "294248").map(drop), none, "an instant outside 64 bits"),
        (date("YYYY-MM-DD", "5881580-07-11").map(drop), none, "a date outside 32 bits"),
        (
            written("DD FMMM", LEAP_DAY),
            at("MM"),
            "MM cannot be written, or only with another prefix or suffix, or none",
        ),
        (written("YYYY", no_leap_day), none, "no moment of the years 1 to 9999"),
        (written("YYYY-MM-DD", LEAP_DAY), (None, [10, 0]), "the text needs 10 bytes"),
        (strictly("DD.MM", "30.02"), none, "a day that its month never has"),
    ];
    assert_eq!(cases.len(), Cause::ALL.len());
    for ((answer, (pattern, figures), sentence), cause) in cases.into_iter().zip(Cause::ALL.iter().copied()) {
        let refusal = answer.expect_err(sentence);
        assert_eq!((refusal.cause(), refusal.number()), (cause, cause.number()));
        assert_eq!((refusal.pattern(), refusal.figures()), (pattern, figures), "{refusal}");
        assert_eq!(refusal.to_string(), sentence);
    }
}

/// The ends of the limits, on both sides.
#[test]
fn limits() {
    let input = |length: usize| read("YYYY", "2024".to_string() + &" ".repeat(length - 4)).map(|parts| parts.year);
    assert_eq!(input(512), Ok(2024));
    assert_eq!(input(513).unwrap_err().cause(), Cause::TooLong);
    let template = |length: usize| Template::compile("é".repeat(length / 2) + &"-".repeat(length % 2));
    assert_eq!(template(256).unwrap().as_str().len(), 256);
    assert_eq!(template(257).unwrap_err().cause(), Cause::TooLong);
}

/// The limits are tested before the bytes are.
#[test]
fn too_long_before_not_utf8() {
    assert_eq!(Template::compile([0xff; 257]).unwrap_err().cause(), Cause::TooLong);
    assert_eq!(read([0xff; 256], [b' '; 513]).unwrap_err().cause(), Cause::TooLong);
    assert_eq!(read([0xff; 256], [b' '; 512]).unwrap_err().cause(), Cause::NotUtf8);
}

#[test]
fn an_error_like_others() {
    fn year(template: &str, input: &str) -> Result<i32, Box<dyn Error + Send + Sync>> {
        Ok(template.parse::<Template>()?.read(input)?.year)
    }
    assert_eq!(year("YYYY", "2024").unwrap(), 2024);
    assert_eq!(year("YYYY", "x").unwrap_err().to_string(), "no integer at YYYY");
}
