//! The answers to a template and a moment: the text that the module writes, or a refusal by the writer's own rules.

use super::reading::{Answer, Limits, Refusal, shown};
use super::*;
use crate::timestamp::{days_from_civil, month_lengths};

/// Year, month, day, hour, minute, second, microsecond.
pub type Moment = [i32; 7];

/// The patterns that the writer knows, in capitals.
const WRITTEN: [&str; 20] = [
    "YYYY", "IYYY", "MM", "MONTH", "MON", "DD", "IW", "HH24", "HH12", "HH", "MI", "SS", "DDD", "ID", "SSSSS", "US",
    "AM", "PM", "A.M.", "P.M.",
];

/// The groups of a full template, which has one of each list, and US.
const DATES: [&[&str]; 5] =
    [&["YYYY", "MM", "DD"], &["YYYY", "MONTH", "DD"], &["YYYY", "MON", "DD"], &["YYYY", "DDD"], &["IYYY", "IW", "ID"]];
const TIMES: [&[&str]; 3] = [&["HH24", "MI", "SS"], &["HH12", "MI", "SS", "AM"], &["SSSSS"]];

/// 0 and the text of a moment; or a refusal.
pub fn written(template: &[u8], moment: &[u8]) -> String {
    shown(attempt(template, numbers_of(moment), Limits::PAGES.input), |text| text)
}

/// What the written text must be read as, where a line's template is full: the moment, then its microseconds and days
/// since 1970-01-01. Else `-`.
pub fn back(line: &[u8]) -> String {
    let line = reading::without_return(line);
    let (template, moment) = cut(line);
    let accepted = reading::line(line, written).starts_with("0 ");
    match numbers_of(moment) {
        Some(moment) if accepted && is_full(template) => {
            format!("{} {} {}", moment.map(|number| number.to_string()).join(" "), micros(&moment), days(&moment))
        }
        _ => "-".to_string(),
    }
}

/// The text of a moment for a buffer of `room` bytes. What are not seven numbers is no moment.
pub fn attempt(template: &[u8], numbers: Option<Moment>, room: usize) -> Answer<String> {
    if template.len() > Limits::PAGES.template {
        return Err(Refusal::plain(1));
    }
    let template = std::str::from_utf8(template).map_err(|_| Refusal::plain(2))?;
    if let Some(node) = parse(template.as_bytes()).iter().find(|node| !is_written(node)) {
        return Err(Refusal { pattern: Some(node.key().name.to_string()), ..Refusal::plain(19) });
    }
    let moment = numbers.filter(is_moment).ok_or(Refusal::plain(20))?;
    let text = text(template, micros(&moment));
    if text.len() > room {
        return Err(Refusal { figures: [text.len() as i64, 0], ..Refusal::plain(21) });
    }
    Ok(text)
}

/// A literal; the full name of a month with FM alone; any other pattern that the writer knows, without an affix.
fn is_written(node: &FmtNode) -> bool {
    node.key.is_none_or(|key| {
        let name = key.name.to_ascii_uppercase();
        let affixes = if name == "MONTH" { SUFFIX_FM } else { 0 };
        WRITTEN.contains(&name.as_str()) && node.suffix == affixes
    })
}

/// Seven numbers of 32 bits with a space between two, each as strtol reads it.
pub fn numbers_of(words: &[u8]) -> Option<Moment> {
    let numbers: Option<Vec<i32>> = words.split(|byte| *byte == b' ').map(number_of).collect();
    numbers?.try_into().ok()
}

fn number_of(word: &[u8]) -> Option<i32> {
    let spaces = word.iter().take_while(|byte| is_space_c(**byte)).count();
    std::str::from_utf8(&word[spaces..]).ok()?.parse().ok()
}

fn is_moment(&[year, month, day, hour, minute, second, micros]: &Moment) -> bool {
    let of_clock = (0..24).contains(&hour) && (0..60).contains(&minute) && (0..60).contains(&second);
    let of_year = (1..=9999).contains(&year) && (1..=12).contains(&month);
    let has = |day: i32| (1..=month_lengths(year.into())[month as usize - 1]).contains(&day.into());
    of_year && has(day) && of_clock && (0..1_000_000).contains(&micros)
}

fn days(moment: &Moment) -> i64 {
    let [year, month, day, ..] = moment.map(i64::from);
    days_from_civil(year, month, day)
}

pub fn micros(moment: &Moment) -> i64 {
    let [_, _, _, hour, minute, second, micros] = moment.map(i64::from);
    (days(moment) * 86_400 + hour * 3600 + minute * 60 + second) * 1_000_000 + micros
}

pub fn to_char(template: &str, micros: i64) -> String {
    to_char_timestamp(micros, template).expect("a date pattern writes every timestamp").unwrap_or_default()
}

/// The text by to_char, but for SSSSS, which the writer fills with zeros: the template is cut around it, and what
/// to_char writes for it alone is filled.
fn text(template: &str, micros: i64) -> String {
    let nodes = parse(template.as_bytes());
    let (mut text, mut from) = (String::new(), 0);
    for (node, start) in nodes.iter().zip(starts(template.as_bytes(), &nodes)) {
        if node.key.is_some_and(|key| key.id == DCH_SSSS) {
            let end = start + length(node);
            text += &to_char(&template[from..start], micros);
            text += &format!("{:0>5}", to_char(&template[start..end], micros));
            from = end;
        }
    }
    text + &to_char(&template[from..], micros)
}

/// The patterns of a template in capitals, HH as HH12 and every marker as AM.
pub fn patterns(template: &[u8]) -> Vec<String> {
    let names = parse(template).into_iter().filter_map(|node| node.key).map(|key| key.name.to_ascii_uppercase());
    names
        .map(|name| match name.as_str() {
            "HH" => "HH12".to_string(),
            "PM" | "A.M." | "P.M." => "AM".to_string(),
            _ => name,
        })
        .collect()
}

/// Whether a template that the writer accepts has one date group, one time group and US, and nothing else.
pub fn is_full(template: &[u8]) -> bool {
    let mut patterns = patterns(template);
    patterns.sort();
    let group = |date: &[&'static str], time: &[&'static str]| {
        let mut group = [date, time, &["US"]].concat();
        group.sort();
        group
    };
    DATES.iter().any(|date| TIMES.iter().any(|time| patterns == group(date, time)))
}
