//! What the line program answers to a line, asked of the crate.

use sorbilgan::{date, format, instant, read, Moment, Parts, Refusal, Settings, Template};
use std::fmt::Display;
use std::str;

/// The template and what follows the first TAB. A line that is longer than both may be is left whole, and is then too
/// long as a template.
pub fn cut(line: &[u8]) -> (&[u8], &[u8]) {
    match line.iter().position(|byte| *byte == b'\t') {
        Some(at) if line.len() <= 769 => (&line[..at], &line[at + 1..]),
        _ => (line, b""),
    }
}

/// Where a moment is written, a carriage return at the line's end is no part of it.
pub fn without_return(line: &[u8]) -> &[u8] {
    line.strip_suffix(b"\r").unwrap_or(line)
}

/// The answer, by a template that is used once; by one that is compiled first it must be the same, on a flash card it
/// must be the same within the smaller limits, by a strict template unless the day is one that its month never has, and
/// with accents what is written, and what is read where there is no accent mark.
pub fn answer(mode: &str, line: &[u8]) -> String {
    let (template, rest) = cut(if mode == "write" { without_return(line) } else { line });
    let once = match mode {
        "parts" => shown(read(template, rest).map(numbers)),
        "instant" => shown(instant(template, rest)),
        "date" => shown(date(template, rest)),
        "write" => shown(format(template, &moment(rest))),
        _ => panic!("no such mode: {mode}"),
    };
    let card = on_card(mode, template, rest, &once);
    for (settings, wanted) in [(Settings::new(), &once), (Settings::new().cards(true), &card)] {
        match Template::compile_with(template, settings) {
            Ok(template) => assert_eq!(&compiled(&template, mode, rest), wanted, "{mode} {template:?}"),
            Err(refusal) => assert!(refusal.number() <= 2 && wanted.ends_with(" - 0 0"), "{refusal}, not {wanted}"),
        }
    }
    if let Ok(strict) = Template::compile_with(template, Settings::new().strict(true)) {
        strictly(&strict, mode, rest, &once);
    }
    let has_marks = may_have_marks(template) || may_have_marks(rest);
    match Template::compile_with(template, Settings::new().accents(true)) {
        Ok(accents) if mode == "write" || !has_marks => {
            assert_eq!(compiled(&accents, mode, rest), once, "{mode} {accents:?}");
        }
        _ => {}
    }
    once
}

/// Whether there is a first byte of U+0300 to U+037F.
fn may_have_marks(text: &[u8]) -> bool {
    text.iter().any(|byte| matches!(byte, 0xcc | 0xcd))
}

/// A strict template answers as others do, or refuses with 25. The time, the offset and the range of the answer are
/// tested later: a line that is refused for them may have such a day too.
fn strictly(strict: &Template, mode: &str, rest: &[u8], lenient: &str) {
    let found = compiled(strict, mode, rest);
    let is_refused = match read(strict.as_str(), rest) {
        _ if mode == "write" => false,
        Ok(parts) => is_never(&parts),
        Err(refusal) => found == NEVER && matches!(refusal.number(), 15 | 16),
    };
    assert_eq!(found, if is_refused { NEVER } else { lenient }, "{mode} {strict:?}");
}

/// The answer to a day that its month never has.
const NEVER: &str = "25 - 0 0";

/// Whether month and day are set, the year is not, and the month has that day in no year.
fn is_never(p: &Parts) -> bool {
    let most = [31, 29, 31, 30, 31, 30, 31, 31, 30, 31, 30, 31][p.month as usize - 1];
    (p.year_set, p.month_set, p.day_set) == (false, true, true) && p.day > most
}

/// The answer on a flash card, by that on an exercise page.
fn on_card(mode: &str, template: &[u8], rest: &[u8], page: &str) -> String {
    let text = page.strip_prefix("0 ").filter(|_| mode == "write");
    match text.map(str::len) {
        _ if template.len() > 64 || (mode != "write" && rest.len() > 96) => "1 - 0 0".to_string(),
        Some(length) if length > 96 => format!("21 - {length} 0"),
        _ => page.to_string(),
    }
}

fn compiled(template: &Template, mode: &str, rest: &[u8]) -> String {
    match mode {
        "parts" => shown(template.read(rest).map(numbers)),
        "instant" => shown(template.instant(rest)),
        "date" => shown(template.date(rest)),
        _ => shown(template.format(&moment(rest))),
    }
}

/// The answer as the line program prints it.
fn shown(answer: Result<impl Display, Refusal>) -> String {
    match answer {
        Ok(value) => format!("0 {value}"),
        Err(refusal) => {
            let [first, second] = refusal.figures();
            format!("{} {} {first} {second}", refusal.number(), refusal.pattern().unwrap_or("-"))
        }
    }
}

fn numbers(p: Parts) -> String {
    let offset = p.offset.map_or("none".to_string(), |seconds| seconds.to_string());
    let numbers = [p.year, p.month, p.day, p.hour, p.minute, p.second, p.micros, p.precision];
    let marks = u8::from(p.year_set) + 2 * u8::from(p.month_set) + 4 * u8::from(p.day_set);
    format!("{} {offset} {marks}", numbers.map(|number| number.to_string()).join(" "))
}

/// Seven numbers with a space between two; anything else is no moment.
pub fn moment(text: &[u8]) -> Moment {
    let numbers: Option<Vec<i32>> = text.split(|byte| *byte == b' ').map(number).collect();
    match numbers.as_deref() {
        Some(&[year, month, day, hour, minute, second, micros]) => {
            Moment { year, month, day, hour, minute, second, micros }
        }
        _ => Moment::midnight(0, 0, 0),
    }
}

/// After the spaces of C, of which only a vertical tab is none of Rust's.
fn number(item: &[u8]) -> Option<i32> {
    let spaces = item.iter().take_while(|byte| byte.is_ascii_whitespace() || **byte == 0x0b).count();
    str::from_utf8(&item[spaces..]).ok()?.parse().ok()
}
