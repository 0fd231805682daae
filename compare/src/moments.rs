//! Random lines "template TAB moment": full templates with literals of every kind, a part of the lines spoilt.

use crate::questions::templates;
use crate::random::Random;
use crate::timestamp::month_lengths;

const DATES: [&[&str]; 5] =
    [&["YYYY", "MM", "DD"], &["YYYY", "Month", "DD"], &["YYYY", "Mon", "DD"], &["YYYY", "DDD"], &["IYYY", "IW", "ID"]];
const TIMES: [&[&str]; 4] = [&["HH24", "MI", "SS"], &["HH12", "MI", "SS"], &["HH", "MI", "SS"], &["SSSSS"]];
const MARKERS: [&str; 8] = ["AM", "PM", "A.M.", "P.M.", "am", "pm", "a.m.", "p.m."];

/// Literals by their kind.
const LITERALS: [&[&str]; 12] = [
    &[""],
    &["-", "/", ":", ".", ",", ";", "--", "~!", "[", "](", "{}", "|", "'", "_", "=>", "?", "%", "@", "&", "^", "`"],
    &[" ", "  ", "   ", " - ", "/ ", " :", "\u{b}", "\u{c} "],
    &["0", "7", "42", "2024", "19 ", "-1", "000000"],
    &["+", "-", "+-", "−", " +", "- ", "±"],
    &[
        "\"ngày \"", "\" tháng \"", "\" năm \"", "\" giờ \"", "\" phút \"", "\" giây\"", "\"thứ \"", "\"lúc\"",
        "\"Tết\"",
    ],
    &[
        "\"a\\\"b\"", "\"\\\\\"", "\"\\à\"", "\"YYYY-MM\"", "\"5\"", "\" \"", "\"\"", "\" - \"", "\"AM\"", "\"\\\"\"",
        "\"+0\"",
    ],
    &["x", "n", "ng", "T", "Z", "v", "e", "lúc", "ơ", "k.", "u"],
    // after the name of a month these make another name or a longer word
    &["\"ch\"", "\"s\"", "\"uary\"", "\"e\"", "\"tember\"", "\"ust\"", "ber", "\"'s\"", "\"May\"", "\"Mon\"", "Mo"],
    &["\u{300}", "a\u{300}", "\"nga\u{300}y\"", "\"thu\u{31b}\u{301}\"", "e\u{302}\u{323}", "\"\u{301}\""],
    &["é", "€", "𝄞", "年", "\"月 \"", "日", "ứ", "\u{a0}", "\u{3000}", "½", "٣"],
    &["FM-", "fm ", "TM/", "tm\"\"", "FM\"\"", "FMà", "fm.", "\\", "\\\"", "\\\\", "TM\\\""],
];

/// Patterns that the writer lacks, the padded names among them, and what no pattern may carry there.
const LACKED: [&str; 26] = [
    "FF3", "ff6", "MS", "SSSS", "Month", "month", "MONTH", "Day", "dy", "D", "W", "WW", "Q", "J", "CC", "RM", "YYY",
    "YY", "Y,YYY", "IYY", "IDDD", "BC", "TZH", "OF", "FX", "Monday",
];
const AFFIXED: [&str; 24] = [
    "FMDD", "DDth", "fmyyyy", "TMMI", "HH24TH", "SSSP", "FMSSSSS", "USth", "FMAM", "amTH", "tmIW", "IDSP", "FMMon",
    "fmmon", "FMMON", "TMMonth", "tmMon", "FMMonthTH", "fmmonthth", "FMMONTHSP", "MonTH", "MONth", "monSP", "FMMM",
];

pub fn line(random: &mut Random) -> Vec<u8> {
    let mut template = template(random).into_bytes();
    let mut moment = moment(random).map(|number| number.to_string()).join(" ").into_bytes();
    if random.once_in(9) {
        spoil_template(random, &mut template);
    }
    if random.once_in(9) {
        spoil_moment(random, &mut moment);
    }
    let mut line = if random.once_in(500) { template } else { [template, b"\t".to_vec(), moment].concat() };
    // no byte that ends a line, here or for awk
    line.retain(|byte| !b"\n\0".contains(byte));
    line
}

/// A line as it may arrive: now and then a carriage return is before its newline.
pub fn arriving(random: &mut Random) -> Vec<u8> {
    let mut line = line(random);
    if random.once_in(12) {
        line.push(b'\r');
    }
    line
}

/// A full template; now and then a pattern more or less.
fn template(random: &mut Random) -> String {
    let time = random.pick(&TIMES);
    let mut patterns = [random.pick(&DATES), time, &["US"]].concat();
    if time[0] == "HH12" || time[0] == "HH" {
        patterns.push(random.pick(&MARKERS));
    }
    random.shuffle(&mut patterns);
    if random.once_in(24) {
        patterns.remove(0);
    }
    if random.once_in(24) {
        patterns.push(random.pick(&["YYYY", "DD", "US", "am", "SSSSS", "HH24", "MM", "Month", "Mon"]));
    }
    let sparse = random.below(4);
    let mut template = literal(random, sparse).to_string();
    for pattern in patterns {
        template += &spelled(random, pattern);
        template += literal(random, sparse);
    }
    if random.once_in(20) {
        template += random.pick(&["\"", "\"ngày", "\" ", "\"\\", "FM", "tm", "\\"]);
    }
    template
}

/// A pattern as a full template may have it: names in three cases, the full ones with FM or fm, digits in two.
fn spelled(random: &mut Random, pattern: &str) -> String {
    match pattern {
        "Month" => [random.pick(&["FM", "fm"]), random.pick(&["Month", "month", "MONTH"])].concat(),
        "Mon" => random.pick(&["Mon", "mon", "MON"]).to_string(),
        _ if !MARKERS.contains(&pattern) && random.once_in(2) => pattern.to_lowercase(),
        _ => pattern.to_string(),
    }
}

/// `sparse` from 0, for a literal at every place, to 3, for none at most.
fn literal(random: &mut Random, sparse: usize) -> &'static str {
    let kind = random.pick(&LITERALS);
    if random.below(4) < sparse { "" } else { random.pick(kind) }
}

pub fn moment(random: &mut Random) -> [i32; 7] {
    let [year, month, day] = date(random);
    let edge = random.between(0, 59);
    let [hour, minute, second] = match random.below(8) {
        0 => [0, 0, 0],
        1 => [12, 0, 0],
        2 => [23, 59, 59],
        3 => [random.pick(&[0, 11, 12, 13, 23]), edge, edge],
        4 => [random.between(0, 2), 0, edge],
        _ => [random.between(0, 23), random.between(0, 59), random.between(0, 59)],
    };
    let micros = match random.below(6) {
        0 => random.pick(&[0, 1, 9, 10, 99_999, 100_000, 500_000, 999_999]),
        1 => 999_999,
        _ => random.between(0, 999_999),
    };
    [year, month, day, hour, minute, second, micros]
}

fn date(random: &mut Random) -> [i32; 3] {
    let year = random.pick(&[1, 2, 4, 999, 1000, 1970, 2000, 2024, 9998, 9999]);
    let year = if random.once_in(3) { year } else { random.between(1, 9999) };
    let leap = (year / 4 * 4).max(4);
    let leap = if leap % 100 == 0 && leap % 400 != 0 { leap + 4 } else { leap };
    let month = random.between(1, 12);
    let last = month_lengths(year.into())[month as usize - 1] as i32;
    match random.below(12) {
        0 => random.pick(&[[1, 1, 1], [9999, 12, 31]]),
        1 => [leap, 2, 29],
        2 => [year, 2, 28],
        // around the turn of a week-year
        3 | 4 => [year, 12, random.between(28, 31)],
        5 | 6 => [year, 1, random.between(1, 4)],
        7 => [year, month, random.pick(&[1, last])],
        _ => [year, month, random.between(1, last)],
    }
}

fn spoil_template(random: &mut Random, template: &mut Vec<u8>) {
    let ends = |template: &[u8]| std::str::from_utf8(template).unwrap().char_indices().map(|(at, _)| at).collect();
    let places: Vec<usize> = ends(template);
    let at = if places.is_empty() { 0 } else { random.pick(&places) };
    match random.below(13) {
        0..=2 => insert(template, at, random.pick(&LACKED)),
        3..=5 => insert(template, at, random.pick(&AFFIXED)),
        6 => template.truncate(at),
        7 => template.insert(at, random.pick(b"\x80\xbf\xc3\xff\xf4")),
        8 => template.resize(random.pick(&[255, 256, 256, 257, 800]).max(template.len()), random.pick(b" -x")),
        9 => *template = "US".repeat(random.pick(&[85, 86, 100, 128])).into(),
        // 510 bytes of numbers, and literals to the limit or past it
        10 => *template = ["US".repeat(85), "-".repeat(random.below(5))].concat().into(),
        // 504 bytes of numbers, and a name: the month decides whether the text fits
        11 => *template = ["US".repeat(84), spelled(random, "Month"), "-".repeat(random.below(5))].concat().into(),
        _ => insert(template, at, std::str::from_utf8(&templates::piece(random)).unwrap_or("\u{300}")),
    }
}

fn insert(template: &mut Vec<u8>, at: usize, text: &str) {
    template.splice(at..at, text.bytes());
}

fn spoil_moment(random: &mut Random, moment: &mut Vec<u8>) {
    let mut words: Vec<String> = std::str::from_utf8(moment).unwrap().split(' ').map(str::to_string).collect();
    let place = random.below(7);
    match random.below(12) {
        0 => words.truncate(place),
        1 => words.push(random.pick(&["0", "", "x", "none"]).into()),
        2 => words[place] = random.pick(&["", "x", "-", "1.5", "0x1", "2147483648", "-2147483649", "１"]).into(),
        // as strtol reads them, these are numbers
        3 => words[place] = format!("{}{}", random.pick(&["+", "0", "000000", "\r", "\u{b}+"]), words[place]),
        4 => words[place] += random.pick(&["\r", "x", "\t", ".", " "]),
        5 => words[0] = random.pick(&["0", "10000", "-1", "2147483647", "9999", "1"]).into(),
        6 => words[1] = random.pick(&["0", "13", "-1", "12", "4"]).into(),
        7 => words[2] = random.pick(&["0", "32", "31", "30", "29"]).into(),
        8 => words[3] = random.pick(&["24", "-1", "23"]).into(),
        9 => words[random.between(4, 5) as usize] = random.pick(&["60", "-1", "59"]).into(),
        10 => words[6] = random.pick(&["1000000", "-1", "999999", "2147483647"]).into(),
        _ => words[place] = "0".repeat(random.pick(&[490, 520, 800])) + &words[place],
    }
    *moment = words.join(" ").into_bytes();
    if random.once_in(30) {
        moment.insert(0, random.pick(b" \xff\t"));
    }
}
