//! Random lines "template TAB input" of a month and a day, mostly without a year: days that a month has, that it can
//! never have, and what is refused before or after these.

use crate::formatting::answers::LONGEST;
use crate::formatting_gen::*;
use crate::pairs;
use crate::random::Random;

/// A piece of a template, and what the input has there.
type Piece = (&'static str, String);

/// Literals, which the input has without their quotes.
const BETWEEN: [&str; 8] = [" ", "-", "/", ", ", ".", "\" ngày \"", "\" tháng \"", "\" nga\u{300}y \""];

pub fn line(random: &mut Random) -> Vec<u8> {
    let number = if random.once_in(3) { random.between(0, 13) } else { random.pick(&[2, 2, 4, 6, 9, 11, 12]) };
    let month = number.clamp(1, 12) as usize - 1;
    let mut pieces = vec![of_month(random, number, month), of_day(random, LONGEST[month])];
    pieces.extend(year(random));
    pieces.extend(time(random));
    pieces.extend(offset(random));
    if random.once_in(16) {
        pieces.remove(0);
    }
    random.shuffle(&mut pieces);
    let (mut template, mut input) = (String::new(), String::new());
    for (pattern, text) in pieces {
        let literal = random.pick(&BETWEEN);
        template += &[pattern, literal].concat();
        input += &[text, literal.replace('"', "")].concat();
    }
    let mut input = input.into_bytes();
    if random.once_in(8) {
        pairs::spoil(random, &mut input);
    }
    [template.into_bytes(), b"\t".to_vec(), input].concat()
}

fn of_month(random: &mut Random, number: i32, month: usize) -> Piece {
    match random.below(8) {
        0 => ("Mon", WORDS_MONTHS_ABBREV[month].to_string()),
        1 => ("FMMonth", WORDS_MONTHS_FULL[month].to_string()),
        2 => ("RM", WORDS_RM_MONTHS_UPPER[11 - month].to_string()),
        3 => ("FMMM", number.to_string()),
        _ => ("MM", format!("{number:02}")),
    }
}

/// Often the last day of the month, or one or two more.
fn of_day(random: &mut Random, last: i32) -> Piece {
    let any = random.between(0, 32);
    let day = random.pick(&[last, last + 1, last + 1, last + 2, any]);
    match random.below(12) {
        0 => ("W", random.between(0, 6).to_string()),
        1 => ("DDD BC", format!("{:03} BC", random.between(0, 367))),
        2 => ("FMDDth", format!("{day}th")),
        _ => ("DD", format!("{day:02}")),
    }
}

/// None; one that is read as 0, or an era alone; now and then one that is set.
fn year(random: &mut Random) -> Option<Piece> {
    let year = random.between(0, 9999);
    match random.below(24) {
        0 => Some(("YYYY", "0000".to_string())),
        1 => Some(("Y,YYY", "0,000".to_string())),
        2 => Some(("BC", random.pick(&["BC", "AD"]).to_string())),
        3 => Some(("YYYY BC", "0000 BC".to_string())),
        4 => Some(("YYYY", format!("{year:04}"))),
        5 => Some(("YYYY BC", format!("{year:04} BC"))),
        6 => Some(("CC", random.between(0, 21).to_string())),
        7 => Some(("J", random.between(0, 2_500_000).to_string())),
        8 => Some(("DDD", random.between(0, 367).to_string())),
        _ => None,
    }
}

/// Often out of its range.
fn time(random: &mut Random) -> Option<Piece> {
    match random.below(12) {
        0 => Some(("HH24:MI", format!("{:02}:{:02}", random.between(22, 25), random.between(58, 61)))),
        1 => Some(("HH12 AM", format!("{:02} {}", random.between(0, 13), random.pick(&["AM", "PM"])))),
        2 => Some(("SSSSS", random.between(86_390, 86_405).to_string())),
        3 => Some(("MS", random.pick(&["5", "-1", "999", "1000", "2147483", "2147484"]).to_string())),
        4 => Some(("US", random.pick(&["000001", "999999", "1000000", "-1"]).to_string())),
        _ => None,
    }
}

/// Often out of its range.
fn offset(random: &mut Random) -> Option<Piece> {
    match random.below(12) {
        0 => Some(("TZH", format!("+{}", random.between(14, 17)))),
        1 => Some(("TZH:TZM", format!("-{:02}:{:02}", random.between(0, 16), random.between(58, 61)))),
        2 => Some(("OF", random.pick(&["+07", "-15:59", "+16", "+01:60"]).to_string())),
        _ => None,
    }
}
