//! Random lines "template TAB input": inputs made to suit their templates, a part of them spoilt.

use crate::formatting::{FmtNode, parse_format};
use crate::formatting_gen::*;
use crate::formatting_num::NumDesc;
use crate::questions::templates;
use crate::random::Random;

const USUAL: [&str; 24] = [
    "YYYY-MM-DD",
    "YYYY-MM-DD HH24:MI:SS.US",
    "YYYYMMDDHH24MISSUS",
    "yyyy-mm-dd\"T\"hh24:mi:ss.ms",
    "YYYY DDD SSSSS",
    "yyyyddd",
    "IYYY-IW-ID",
    "IYYYIDDD",
    "YYYY WW",
    "YYYY-MM W",
    "YY MM DD",
    "CC YY",
    "CC BC",
    "Y,YYY-MM-DD",
    "J",
    "Day, DD Mon YYYY",
    "DD Month YYYY BC",
    "FMDDth FMMonth YYYY",
    "DD RM YYYY",
    "HH12:MI:SS.FF3 PM",
    "HH:MI a.m.",
    "YYYY-MM-DD HH24:MI:SS TZH:TZM",
    "YYYY-MM-DD HH24:MI:SSOF",
    "\"ngày\" DD \"tháng\" MM \"năm\" YYYY",
];

/// Around the ends of the ranges, and numbers of which a 32-bit product wraps back to a small one.
const EXTREME: [&str; 14] = [
    "2147483647",
    "2147483648",
    "-2147483648",
    "-2147483649",
    "21474837",
    "-21474837",
    "306783380",
    "9223372036854775807",
    "9223372036854775808",
    "000000000000000000000007",
    "4294968",
    "42949674",
    "613566758",
    "4294967298",
];

pub fn line(random: &mut Random) -> Vec<u8> {
    let mut template = template(random);
    let mut input = input(random, &template);
    if random.once_in(100) {
        stretch(random, &mut template, 256);
        stretch(random, &mut input, 512);
    }
    let mut line = [template, b"\t".to_vec(), input].concat();
    line.retain(|byte| *byte != b'\n');
    line
}

pub fn template(random: &mut Random) -> Vec<u8> {
    let usual = random.pick(&USUAL).as_bytes();
    if random.once_in(2) {
        return usual.to_vec();
    }
    let fixed = if random.once_in(8) { "FX" } else { "" };
    let mut pieces = vec![fixed.as_bytes().to_vec()];
    for _ in 0..=random.below(5) {
        pieces.push(match random.below(24) {
            0 => templates::piece(random),
            1..=3 => random.pick(&templates::WORDS).into(),
            4..=9 => random.pick(&["-", " ", "/", ":", "  ", " - ", ", ", "\" \"", "x", "0", "\\\""]).into(),
            10 => random.pick(&["FM", "TM", "fm"]).into(),
            11 => [templates::pattern(random), random.pick(&["TH", "th"])].concat().into(),
            12 => usual.to_vec(),
            _ => templates::pattern(random).into(),
        });
    }
    pieces.concat()
}

/// An input made to suit a template, now and then spoilt.
pub fn input(random: &mut Random, template: &[u8]) -> Vec<u8> {
    let nodes = parse_format(template, true, &mut NumDesc).expect("no date template is refused");
    let mut input = nodes.iter().flat_map(|node| text(random, node)).collect();
    if random.once_in(4) {
        spoil(random, &mut input);
    }
    input
}

fn text(random: &mut Random, node: &FmtNode) -> Vec<u8> {
    let Some(key) = node.key else {
        return match random.below(12) {
            0 => random.pick(&["", " ", "-", "x", "à", "7"]).into(),
            1 => [b" ", node.chars].concat(),
            _ => node.chars.to_vec(),
        };
    };
    let ordinal = node.suffix & (SUFFIX_TH | SUFFIX_th) != 0;
    let ending = if ordinal { random.pick(&["th", "th", "ST", "ứ ", "x", ""]) } else { "" };
    [field(random, key.name), ending.to_string()].concat().into_bytes()
}

/// A text for a pattern: a word of its list, or a number that it may have or only just may not.
fn field(random: &mut Random, name: &str) -> String {
    let (low, high) = match name.to_ascii_uppercase().as_str() {
        "AM" | "PM" => return word(random, &WORDS_AMPM),
        "A.M." | "P.M." => return word(random, &WORDS_AMPM_LONG),
        "AD" | "BC" => return word(random, &WORDS_ADBC),
        "A.D." | "B.C." => return word(random, &WORDS_ADBC_LONG),
        "MONTH" => return word(random, &WORDS_MONTHS_FULL),
        "MON" => return word(random, &WORDS_MONTHS_ABBREV),
        "DAY" => return word(random, &WORDS_DAYS_FULL),
        "DY" => return word(random, &WORDS_DAYS_ABBREV),
        "RM" => return word(random, &WORDS_RM_MONTHS_UPPER),
        "FX" => return String::new(),
        "OF" | "TZ" | "TZH" => return offset(random),
        "Y,YYY" => return [number(random, 0, 9), ",".into(), number(random, 0, 999)].concat(),
        "HH" | "HH12" => (0, 13),
        "HH24" => (0, 24),
        "MI" | "SS" | "TZM" => (0, 60),
        "SSSS" | "SSSSS" => (0, 86_400),
        "DD" => (0, 32),
        "DDD" | "IDDD" => (0, 367),
        "D" | "ID" => (0, 8),
        "WW" | "IW" => (0, 54),
        "W" | "Q" => (0, 6),
        "MM" => (0, 13),
        "J" => (0, 5_373_485),
        "CC" | "YY" | "IY" | "FF2" => (0, 99),
        "Y" | "I" | "FF1" => (0, 9),
        "YYY" | "IYY" | "MS" | "FF3" => (0, 999),
        "YYYY" | "IYYY" | "FF4" => (0, 9999),
        "FF5" => (0, 99_999),
        _ => (0, 999_999),
    };
    number(random, low, high)
}

fn number(random: &mut Random, low: i32, high: i32) -> String {
    let value = random.between(low, high);
    let width = high.to_string().len();
    match random.below(40) {
        0 => random.pick(&EXTREME).to_string(),
        1 => format!("-{value}"),
        2 => format!("+{value:0width$}"),
        3 => format!("  {value}"),
        4 => format!("{}", random.next() >> random.below(64)),
        5..=8 => value.to_string(),
        9 => "x".to_string(),
        _ => format!("{value:0width$}"),
    }
}

fn word(random: &mut Random, list: &[&str]) -> String {
    let word = random.pick(list);
    match random.below(16) {
        0 => word[..word.len() - 1].to_string(),
        1..=4 => word.to_uppercase(),
        5..=8 => word.to_lowercase(),
        _ => word.to_string(),
    }
}

fn offset(random: &mut Random) -> String {
    let sign = random.pick(&["+", "+", "-", "-", "", " ", "−"]);
    let minutes = random.pick(&["", "", ":30", ":59", ":60", ":5", ":-1", ":", "x"]);
    let zone = random.pick(&["UTC", "Z", "x"]);
    if random.once_in(8) { zone.to_string() } else { format!("{sign}{}{minutes}", number(random, 0, 17)) }
}

/// Changes, adds or removes a character, or now and then a byte, or cuts the input short.
pub fn spoil(random: &mut Random, input: &mut Vec<u8>) {
    let at = random.below(input.len() + 1);
    let starts = |input: &[u8], at: usize| input.get(at).is_none_or(|byte| byte & 0xc0 != 0x80);
    if !starts(input, at) && !random.once_in(10) {
        return;
    }
    if random.once_in(3) {
        return input.truncate(at);
    }
    let next = (at + 1..=input.len()).find(|place| starts(input, *place)).unwrap_or(at);
    let other = random.pick(&["", "", " ", "0", "9", "-", ":", ",", "\"", "m", "à", "\u{300}"]);
    input.splice(at..random.pick(&[at, next]), other.bytes());
}

/// Adds literals up to the limit, or a byte beyond.
fn stretch(random: &mut Random, text: &mut Vec<u8>, limit: usize) {
    let length = random.pick(&[text.len(), limit - 1, limit, limit, limit + 1]);
    let filler = random.pick(b" -x");
    text.resize(length.max(text.len()), filler);
}
