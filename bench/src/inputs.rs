//! What is read and written: templates, the formats that mean the same to others, and lines of many moments.

use oracle::answers::{Moment, micros};
use oracle::random::Random;
use std::ffi::CString;

/// The lines of a template; every measurement goes round them.
pub const LINES: usize = 64;

const MONTHS: [&str; 12] = [
    "January", "February", "March", "April", "May", "June", "July", "August", "September", "October", "November",
    "December",
];
/// The months of Vietnamese in words, which no pattern reads.
const IN_WORDS: [&str; 12] =
    ["giêng", "hai", "ba", "tư", "năm", "sáu", "bảy", "tám", "chín", "mười", "mười một", "chạp"];

pub struct Line {
    pub text: String,
    pub c_text: CString,
    pub moment: Moment,
    /// The microseconds since 1970-01-01 that are read, if it is read.
    pub instant: Option<i64>,
}

/// One input: a template and the formats by which others read and write its lines; None where they cannot.
pub struct Input {
    pub name: &'static str,
    pub template: String,
    pub chrono: String,
    pub time: String,
    pub glibc: Option<CString>,
    /// glibc leaves the fraction: it is read after its format.
    pub fraction: bool,
    /// The lines have a time of day.
    pub clock: bool,
    /// The library writes all patterns of the template.
    pub written: bool,
    /// All are measured, and not the library's character modes alone.
    pub by_others: bool,
    pub lines: Vec<Line>,
}

fn moment(random: &mut Random) -> Moment {
    let mut below = |low: i32, high: i32| random.between(low, high);
    [below(1970, 2069), below(1, 12), below(1, 28), below(0, 23), below(0, 59), below(0, 59), below(0, 999_999)]
}

/// Lines of random moments, the same for good.
fn lines(clock: bool, text: impl Fn(&Moment) -> String, accepted: bool) -> Vec<Line> {
    let mut random = Random::new(1970);
    let line = |mut moment: Moment| {
        if !clock {
            moment[3..].fill(0);
        }
        let text = text(&moment);
        let c_text = CString::new(text.as_str()).unwrap();
        Line { text, c_text, moment, instant: accepted.then(|| micros(&moment)) }
    };
    (0..LINES).map(|_| line(moment(&mut random))).collect()
}

fn iso(&[year, month, day, hour, minute, second, micros]: &Moment, gap: &str) -> String {
    format!("{year:04}-{month:02}-{day:02}{gap}{hour:02}:{minute:02}:{second:02}.{micros:06}")
}

fn c_format(text: &str) -> Option<CString> {
    Some(CString::new(text).unwrap())
}

const TIME_ISO: &str = "[year]-[month]-[day] [hour]:[minute]:[second].[subsecond digits:6]";

fn iso_input() -> Input {
    Input {
        name: "ISO",
        template: "YYYY-MM-DD HH24:MI:SS.US".into(),
        chrono: "%Y-%m-%d %H:%M:%S.%6f".into(),
        time: TIME_ISO.into(),
        glibc: c_format("%Y-%m-%d %H:%M:%S"),
        fraction: true,
        clock: true,
        written: true,
        by_others: true,
        lines: lines(true, |moment| iso(moment, " "), true),
    }
}

fn in_vietnamese(&[year, month, day, ..]: &Moment) -> String {
    format!("ngày {day:02} tháng {month:02} năm {year:04}")
}

fn vietnamese() -> Input {
    Input {
        name: "Vietnamese",
        template: "\"ngày \"DD\" tháng \"MM\" năm \"YYYY".into(),
        chrono: "ngày %d tháng %m năm %Y".into(),
        time: "ngày [day] tháng [month] năm [year]".into(),
        glibc: c_format("ngày %d tháng %m năm %Y"),
        fraction: false,
        clock: false,
        written: true,
        by_others: true,
        lines: lines(false, in_vietnamese, true),
    }
}

/// The letters of a Vietnamese date, and their marks after them.
fn apart(text: &str) -> String {
    text.replace('à', "a\u{300}").replace('á', "a\u{301}").replace('ă', "a\u{306}")
}

/// The Vietnamese input with letters and marks apart: in its lines alone, or in its template too. The spaces let the
/// old mode read both.
fn line_apart() -> Input {
    let lines = lines(false, |moment| apart(&in_vietnamese(moment)), true);
    Input { name: "line apart", by_others: false, lines, ..vietnamese() }
}

fn both_apart() -> Input {
    Input { name: "both apart", template: apart(&vietnamese().template), ..line_apart() }
}

fn month_names() -> Input {
    let name = |month: i32| MONTHS[month as usize - 1];
    Input {
        name: "month names",
        template: "DD FMMonth YYYY".into(),
        chrono: "%d %B %Y".into(),
        time: "[day] [month repr:long] [year]".into(),
        glibc: c_format("%d %B %Y"),
        fraction: false,
        clock: false,
        written: true,
        by_others: true,
        lines: lines(false, |&[year, month, day, ..]| format!("{day:02} {} {year:04}", name(month)), true),
    }
}

/// Refused at the month, which is in words.
fn refused() -> Input {
    let name = |month: i32| IN_WORDS[month as usize - 1];
    let text = |&[year, month, day, ..]: &Moment| format!("ngày {day:02} tháng {} năm {year:04}", name(month));
    Input { name: "refused", written: false, lines: lines(false, text, false), ..vietnamese() }
}

/// How often the long template has the ISO patterns.
const TIMES: usize = 10;

/// 256 bytes of template, and lines of 512: the ISO patterns ten times over, with many spaces between the two halves of the first nine.
fn long() -> Input {
    let gaps: Vec<String> = (0..TIMES).map(|at| " ".repeat(if at < 2 { 24 } else { 25 })).collect();
    let text = |moment: &Moment| gaps.iter().map(|gap| iso(moment, gap) + " ").collect::<String>() + "năm";
    let time = gaps.iter().map(|gap| TIME_ISO.replace("] [", &format!("]{gap}[")) + " ");
    let long = Input {
        name: "long",
        template: "YYYY-MM-DD HH24:MI:SS.US ".repeat(TIMES) + "\"năm\"",
        chrono: "%Y-%m-%d %H:%M:%S.%6f ".repeat(TIMES) + "năm",
        time: time.collect::<String>() + "năm",
        glibc: None,
        fraction: true,
        clock: true,
        written: true,
        by_others: true,
        lines: lines(true, text, true),
    };
    assert_eq!(long.template.len(), 256);
    assert!(long.lines.iter().all(|line| line.text.len() == 512));
    long
}

pub fn all() -> Vec<Input> {
    vec![iso_input(), vietnamese(), line_apart(), both_apart(), month_names(), refused(), long()]
}
