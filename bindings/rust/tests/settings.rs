//! The exercise pages and the flash cards, each at its own limits; and what a strict template refuses, and when. What
//! a template with accents reads is in accents.rs and vietnamese.rs.

use sorbilgan::{format, Cause, Moment, Parts, Refusal, Settings, Template, INPUT_LIMIT, TEMPLATE_LIMIT};
use std::collections::HashSet;

const PAGES: Settings = Settings::new();
const CARDS: Settings = PAGES.cards(true);
const STRICT: Settings = PAGES.strict(true);
const ACCENTS: Settings = PAGES.accents(true);
const LEAP_DAY: Moment = Moment::midnight(2024, 2, 29);

fn template(text: &str, settings: Settings) -> Template {
    Template::compile_with(text, settings).unwrap()
}

/// Refusal 1, without pattern and figures.
fn assert_too_long<T>(answer: Result<T, Refusal>) {
    let refusal = answer.err().unwrap();
    assert_eq!((refusal.cause(), refusal.pattern(), refusal.figures()), (Cause::TooLong, None, [0, 0]));
}

#[test]
fn limits_of_both() {
    assert_eq!((PAGES.template_limit(), PAGES.input_limit()), (TEMPLATE_LIMIT, INPUT_LIMIT));
    assert_eq!((CARDS.template_limit(), CARDS.input_limit()), (64, 96));
    for others in [STRICT, ACCENTS] {
        assert_eq!((others.template_limit(), others.input_limit()), (TEMPLATE_LIMIT, INPUT_LIMIT));
    }
    assert_eq!(Settings::default(), PAGES);
}

/// Each setting changes alone, whichever is set first.
#[test]
fn settings_together() {
    assert_eq!(CARDS.strict(true), STRICT.cards(true));
    assert_eq!((CARDS.strict(true).cards(false), CARDS.strict(true).strict(false)), (STRICT, CARDS));
    let all = CARDS.strict(true).accents(true);
    assert_eq!(all, ACCENTS.cards(true).strict(true));
    assert_eq!((all.accents(false), all.cards(false)), (CARDS.strict(true), STRICT.accents(true)));
    assert_eq!(HashSet::from([PAGES, CARDS, STRICT, ACCENTS, CARDS.strict(true), all]).len(), 6);
    assert_eq!((all.template_limit(), all.input_limit()), (64, 96));
}

/// The limit is tested before the bytes are.
#[test]
fn templates_at_the_limit() {
    for (settings, limit) in [(PAGES, 256), (CARDS, 64)] {
        let longest = template(&"é".repeat(limit / 2), settings);
        assert_eq!((longest.as_str().len(), longest.settings()), (limit, settings));
        assert_too_long(Template::compile_with("é".repeat(limit / 2) + "-", settings));

        let refusal = Template::compile_with(vec![0xff; limit], settings).unwrap_err();
        assert_eq!(refusal.cause(), Cause::NotUtf8);
        assert_too_long(Template::compile_with(vec![0xff; limit + 1], settings));
    }
}

#[test]
fn inputs_at_the_limit() {
    for (settings, limit) in [(PAGES, 512), (CARDS, 96)] {
        let template = template("YYYY-MM-DD", settings);
        let line = format!("{:limit$}", "2024-02-29");
        assert_eq!(template.read(&line), Ok(Parts::from(LEAP_DAY)));
        assert_eq!(template.instant(&line), Ok(1_709_164_800_000_000));
        assert_eq!(template.date(&line), Ok(19_782));
        assert_eq!(template.read(vec![0xff; limit]).unwrap_err().cause(), Cause::NotUtf8);

        for longer in [line.into_bytes(), vec![0xff; limit]].map(|input| [&input[..], b" "].concat()) {
            assert_too_long(template.read(&longer));
            assert_too_long(template.instant(&longer));
            assert_too_long(template.date(&longer));
        }
    }
}

/// A text has the limit of an input where it is a `String`, and none where there is room for it.
#[test]
fn texts_at_the_limit() {
    for (settings, limit) in [(PAGES, 512), (CARDS, 96)] {
        let of_length = |length: usize| template(&("US".repeat(length / 6) + &"-".repeat(length % 6)), settings);
        let text = of_length(limit).format(&LEAP_DAY).unwrap();
        assert_eq!(text.len(), limit);
        assert!(of_length(limit).read(text).is_ok());

        let longer = of_length(limit + 1);
        let refusal = longer.format(&LEAP_DAY).unwrap_err();
        assert_eq!((refusal.cause(), refusal.figures()), (Cause::NoRoom, [limit as i64 + 1, 0]));
        assert_eq!(longer.write(&LEAP_DAY, &mut [0; 600]), Ok(limit + 1));
    }
}

/// A full template's text is at most six bytes longer than the template, and so can be read.
#[test]
fn full_templates_at_the_limit() {
    let september = Moment { month: 9, day: 30, hour: 23, micros: 999_999, ..LEAP_DAY };
    for (settings, limit) in [(PAGES, 256), (CARDS, 64)] {
        let longest = template(&format!("{:limit$}", "YYYYFMMonthDDSSSSSUS"), settings);
        let text = longest.format(&september).unwrap();
        assert_eq!(text.len(), limit + 6);
        assert_eq!(longest.read(text), Ok(Parts::from(september)));
    }
}

/// The text comes first in their order, as it does without settings.
#[test]
fn templates_by_their_settings() {
    let (page, card) = (template("YYYY", PAGES), template("YYYY", CARDS));
    assert_ne!(page, card);
    assert_eq!(card, card.clone());
    assert_eq!(HashSet::from([page.clone(), card.clone(), template("YYYY", CARDS)]).len(), 2);
    let longer = [PAGES, CARDS].map(|settings| template("YYYY-MM", settings));
    assert!(longer.iter().all(|longer| page < *longer && card < *longer));
    let shown = r#"YYYY Template("YYYY", Settings { cards: true, strict: false, accents: false })"#;
    assert_eq!(format!("{card} {card:?}"), shown);
    assert_eq!("YYYY".parse(), Ok(page));
    assert_ne!(template("YYYY", STRICT), template("YYYY", PAGES));
    assert_ne!(template("YYYY", ACCENTS), template("YYYY", PAGES));
}

/// The cause of a refusal, or none where the line is accepted; the same for parts, instants and dates.
fn refused(text: &str, line: &str, settings: Settings) -> Option<Cause> {
    let template = template(text, settings);
    let causes = [template.read(line).err(), template.instant(line).err(), template.date(line).err()];
    let causes = causes.map(|refusal| {
        let refusal = refusal?;
        assert_eq!((refusal.pattern(), refusal.figures()), (None, [0, 0]), "{text}: {line}");
        Some(refusal.cause())
    });
    assert!(causes.iter().all(|cause| *cause == causes[0]), "{text}: {line}: {causes:?}");
    causes[0]
}

/// 25 comes after a fraction outside 32 bits and the ranges of month and day, and before those of time and offset.
#[test]
fn strict_in_its_place() {
    use Cause::{FieldOverflow, NoSuchDay, OffsetRange};
    for (text, line, lenient, strict) in [
        ("DD.MM", "29.02", None, None),
        ("DD.MM", "30.02", None, Some(NoSuchDay)),
        ("DD.MM", "31.02", None, Some(NoSuchDay)),
        ("DD Month", "31 November", None, Some(NoSuchDay)),
        ("DD.MM.YYYY", "30.02.0000", None, Some(NoSuchDay)),
        ("DD.MM.YYYY", "30.02.2024", Some(FieldOverflow), Some(FieldOverflow)),
        ("DD.MM", "30", None, None),
        ("DD.MM", "32.02", Some(FieldOverflow), Some(FieldOverflow)),
        ("DD.MM", "30.13", Some(FieldOverflow), Some(FieldOverflow)),
        ("DD.MM MS", "30.02 9999999", Some(FieldOverflow), Some(FieldOverflow)),
        ("DD.MM MS", "30.02 9999", Some(FieldOverflow), Some(NoSuchDay)),
        ("DD.MM HH24", "30.02 24", Some(FieldOverflow), Some(NoSuchDay)),
        ("DD.MM HH24", "29.02 24", Some(FieldOverflow), Some(FieldOverflow)),
        ("DD.MM OF", "30.02 +16", Some(OffsetRange), Some(NoSuchDay)),
        ("DD.MM OF", "29.02 +16", Some(OffsetRange), Some(OffsetRange)),
    ] {
        for (settings, wanted) in [(PAGES, lenient), (CARDS, lenient), (STRICT, strict), (STRICT.cards(true), strict)] {
            assert_eq!(refused(text, line, settings), wanted, "{text}: {line} with {settings:?}");
        }
    }
}

/// A refusal of reading comes first: of the limits, of a pattern, of the 12-hour clock.
#[test]
fn strict_after_reading() {
    for (text, line, number) in [
        ("DD.MM", format!("{:513}", "30.02"), 1),
        ("DD.MM YYYY", "30.02 x".to_string(), 7),
        ("DD.MM HH12", "30.02 13".to_string(), 13),
    ] {
        for settings in [PAGES, STRICT] {
            assert_eq!(template(text, settings).read(&line).unwrap_err().number(), number, "{text} with {settings:?}");
        }
    }
}

/// A strict template writes what others write, and reads it back.
#[test]
fn strict_templates_write() {
    let full = "DD.MM.YYYY HH24:MI:SS.US";
    let text = template(full, STRICT).format(&LEAP_DAY).unwrap();
    assert_eq!(Ok(&text), format(full, &LEAP_DAY).as_ref());
    assert_eq!(template(full, STRICT).read(text), Ok(Parts::from(LEAP_DAY)));
    let no_moment = template("DD.MM", STRICT).format(&Moment { day: 30, ..LEAP_DAY }).unwrap_err();
    assert_eq!(no_moment.cause(), Cause::NoMoment);
}
