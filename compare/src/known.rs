//! Lines of which the answer is known: the stored lists begin with them, and tests compare the module's answers.

#[cfg(test)]
pub mod accents;
pub mod marks;
pub mod moments;
pub mod readings;

/// A template, an input, and the answer.
type Known = (&'static str, &'static str, &'static str);

const NOTHING: &str = "0 0 1 1 0 0 0 0 0 none 0";
const TOO_LONG: &str = "1 - 0 0";
const NOT_UTF8: &str = "2 - 0 0";

/// The lines by which the program is introduced.
const FIRST: &[Known] = &[
    ("YYYY-MM-DD", "2024-02-29", "0 2024 2 29 0 0 0 0 0 none 7"),
    ("MM-DD", "02-30", "0 0 2 30 0 0 0 0 0 none 6"),
    ("YYYY-MM-DD", "2023-02-29", "15 - 0 0"),
];

/// The table that is proved in one statement.
const PROVED: &[Known] = &[
    ("", "abc", NOTHING),
    ("YYYY", "", NOTHING),
    ("MM-DD", "02-30", "0 0 2 30 0 0 0 0 0 none 6"),
    ("YYYY-MM-DD", "2023-02-29", "15 - 0 0"),
    ("Day Dy", "Monday Mon", "4 Dy 0 0"),
    ("Day Dy", "Monday Tue", NOTHING),
    ("HH12", "0", "13 - 0 0"),
    ("HH12 PM", "12 AM", NOTHING),
    ("YY", "69", "0 2069 1 1 0 0 0 0 0 none 1"),
    ("YY", "70", "0 1970 1 1 0 0 0 0 0 none 1"),
    ("MS", "5", "0 0 1 1 0 0 0 500000 0 none 0"),
    ("IYYY-IW-ID", "2020-53-5", "0 2021 1 1 0 0 0 0 0 none 7"),
    ("OF", "+15:59", "0 0 1 1 0 0 0 0 0 57540 0"),
    ("OF", "+16", "16 - 0 0"),
    ("CC YY", "21 00", "0 2100 1 1 0 0 0 0 0 none 1"),
    ("YYYY DDD", "-1 5", "14 - 0 0"),
    ("\"ngày\"DD", "ngày05", "0 0 1 5 0 0 0 0 0 none 4"),
    ("\"ngày\"DD", "nga\u{300}y05", "7 DD 0 0"),
];

/// Both sides of an edge.
const EDGES: &[Known] = &[
    ("YYYY", "2147483647", "0 2147483647 1 1 0 0 0 0 0 none 1"),
    ("YYYY", "2147483648", "8 YYYY 0 0"),
    ("YYYY", "-2147483648", "0 -2147483647 1 1 0 0 0 0 0 none 1"),
    ("YYYY", "-2147483649", "8 YYYY 0 0"),
    ("SS", "59", "0 0 1 1 0 0 59 0 0 none 0"),
    ("SS", "60", "15 - 0 0"),
    ("SSSSS", "86399", "0 0 1 1 23 59 59 0 0 none 0"),
    ("SSSSS", "86400", "15 - 0 0"),
    ("HH12", "12", NOTHING),
    ("HH12", "13", "13 - 13 0"),
    ("YYYY DDD", "2024 366", "0 2024 12 31 0 0 0 0 0 none 7"),
    ("YYYY DDD", "2023 366", "15 - 0 0"),
    ("US", "999999", "0 0 1 1 0 0 0 999999 0 none 0"),
    ("US", "1000000", "15 - 0 0"),
    ("FF1", "7", "0 0 1 1 0 0 0 700000 1 none 0"),
    ("FF6", "7", "0 0 1 1 0 0 0 700000 6 none 0"),
    ("OF", "-15:59", "0 0 1 1 0 0 0 0 0 -57540 0"),
    ("OF", "-00", "0 0 1 1 0 0 0 0 0 0 0"),
    ("TZM", "59", "0 0 1 1 0 0 0 0 0 3540 0"),
    ("TZM", "60", "16 - 0 0"),
    ("J", "1", "0 -4713 11 25 0 0 0 0 0 none 7"),
    ("J", "2460370", "0 2024 2 29 0 0 0 0 0 none 7"),
    ("Y,YYY", "2147483,647", "0 2147483647 1 1 0 0 0 0 0 none 1"),
    ("Y,YYY", "2147483,648", "11 Y,YYY 0 0"),
    ("Y,YYY", "4294967298,024", "0 2024 1 1 0 0 0 0 0 none 1"),
];

/// Refusals 3 to 16; 1 and 2 are of lines that are too long or not UTF-8.
const REFUSED: &[Known] = &[
    // Gregorian and ISO patterns mixed
    ("YYYY-IW", "2024-05", "3 IW 0 0"),
    ("IYYY-MM-DD", "2024-05-05", "3 MM 0 0"),
    ("DD YYYY-iw-DD", "05 2024-05-05", "3 iw 0 0"),
    ("IW Month", "05 March", "3 Month 0 0"),
    ("WW ID", "05 x", "3 ID 0 0"),
    ("IDDD rm", "005 iv", "3 rm 0 0"),
    // field set before to another value
    ("DD DD", "05 06", "4 DD 0 0"),
    ("Month MM", "March 04", "4 MM 0 0"),
    ("HH24 HH12", "13 01", "4 HH12 0 0"),
    ("PM am", "PM AM", "4 am 0 0"),
    ("BC A.D.", "BC a.d.", "4 A.D. 0 0"),
    ("YYYY Y,YYY", "2024 2,023", "4 Y,YYY 0 0"),
    ("YY YYYY", "24 24", "4 YYYY 0 0"),
    ("ID ID", "1 1", "4 ID 0 0"),
    ("TZH:TZM OF", "+01:30 +01:45", "4 OF 0 0"),
    // fixed width, input shorter
    ("DDMM", "1", "5 DD 2 1"),
    ("DDMM", " ", "5 DD 2 0"),
    ("YYYYMM", "202", "5 YYYY 4 3"),
    ("HH24MI", "1", "5 HH24 2 1"),
    ("USSS", "12345", "5 US 6 5"),
    ("ff4SS", "12", "5 ff4 4 2"),
    ("DDMMSS", "123", "5 MM 2 1"),
    // fixed width, fewer bytes parsed
    ("DDMM", "3\" for \"x", "6 DD 2 1"),
    ("YYYYMM", "12x4", "6 YYYY 4 2"),
    ("USSS", "123 456", "6 US 6 3"),
    ("TZHTZM", "+1:30", "6 TZH 2 1"),
    ("IDDDMI", "36x10", "6 IDDD 3 2"),
    ("DD0", "5à", "6 DD 2 1"),
    // no integer
    ("YYYY", "x", "7 YYYY 0 0"),
    ("MM-DD", "02--", "7 DD 0 0"),
    ("DDMM", "ab", "7 DD 0 0"),
    ("DDMM", "12à", "7 MM 0 0"),
    ("Q", "-", "7 Q 0 0"),
    ("TZH", "+x", "7 TZH 0 0"),
    ("OF", "+01:", "7 OF 0 0"),
    ("DD", "−5", "7 DD 0 0"),
    // outside 32 bits
    ("yyyy", "2147483648", "8 yyyy 0 0"),
    ("DD", "-2147483649", "8 DD 0 0"),
    ("MI", "99999999999999999999", "8 MI 0 0"),
    ("Q", "2147483648", "8 Q 0 0"),
    ("FMSSMI", "9223372036854775808", "8 SS 0 0"),
    ("J J", "2147483648 1", "8 J 0 0"),
    // no listed word
    ("Mon", "\"Feb\"", "9 Mon 0 0"),
    ("Day", "Mon", "9 Day 0 0"),
    ("A.M.", "AM", "9 A.M. 0 0"),
    ("TMmonth", "tháng", "9 month 0 0"),
    ("rm", "a", "9 rm 0 0"),
    ("bc", "b", "9 bc 0 0"),
    // Y,YYY without both numbers
    ("Y,YYY", "2024", "10 Y,YYY 0 0"),
    ("YYYY y,yyy", "2,024", "10 y,yyy 0 0"),
    ("Y,YYY", ",024", "10 Y,YYY 0 0"),
    ("Y,YYY", "2,", "10 Y,YYY 0 0"),
    ("Y,YYY", "2 ,024", "10 Y,YYY 0 0"),
    ("Y,YYY", "2,+x", "10 Y,YYY 0 0"),
    // Y,YYY outside 32 bits
    ("Y,YYY", "2147484,0", "11 Y,YYY 0 0"),
    ("Y,YYY", "-2147484,000", "11 Y,YYY 0 0"),
    ("y,yyy", "2147483,999", "11 y,yyy 0 0"),
    ("Y,YYY", "2147483647,0", "11 Y,YYY 0 0"),
    ("Y,YYY Y,YYY", "2,024 -2147483648,-99", "11 Y,YYY 0 0"),
    // a letter where an offset is read
    ("TZ", "UTC", "12 TZ 0 0"),
    ("tz", "Z", "12 tz 0 0"),
    ("TZ tz", "+01 utc", "12 tz 0 0"),
    ("HH24TZ", "12x", "12 TZ 0 0"),
    ("TZ", "a+01", "12 TZ 0 0"),
    // 12-hour clock
    ("HH", "13", "13 - 13 0"),
    ("HH12", "-3", "13 - -3 0"),
    ("AM", "AM", "13 - 0 0"),
    ("HH24 p.m.", "00 p.m.", "13 - 0 0"),
    ("SSSSS AM", "46800 AM", "13 - 13 0"),
    ("HH12", "2147483647", "13 - 2147483647 0"),
    // day of the year, and no year
    ("DDD", "5", "14 - 0 0"),
    ("WW", "3", "14 - 0 0"),
    ("IDDD", "005", "14 - 0 0"),
    ("YYYY DDD", "0 5", "14 - 0 0"),
    ("IYYY IDDD", "-1 5", "14 - 0 0"),
    // field value overflow
    ("YYYY-MM-DD", "1900-02-29", "15 - 0 0"),
    ("MM", "13", "15 - 0 0"),
    ("DD", "32", "15 - 0 0"),
    ("W", "6", "15 - 0 0"),
    ("HH24", "24", "15 - 0 0"),
    ("MI", "60", "15 - 0 0"),
    ("MS", "-1", "15 - 0 0"),
    ("CC", "21474838", "15 - 0 0"),
    ("CC YY", "-21474837 49", "15 - 0 0"),
    ("YYYY WW", "2024 306783380", "15 - 0 0"),
    ("MS", "2147484", "15 - 0 0"),
    // offset
    ("TZH", "16", "16 - 0 0"),
    ("TZH", "+-1", "16 - 0 0"),
    ("TZH:TZM", "+01:60", "16 - 0 0"),
    ("OF", "-01:60", "16 - 0 0"),
    ("TZM", "-1", "16 - 0 0"),
];

/// PostgreSQL 15 answers these otherwise: docs/DIFFERENCES.md.
const OTHERWISE: &[Known] = &[
    ("OF", "1", "0 0 1 1 0 0 0 0 0 3600 0"),
    ("TZ", "1", "0 0 1 1 0 0 0 0 0 3600 0"),
    ("J", "-1", "0 -4713 11 23 0 0 0 0 0 none 7"),
    ("Y,YYY", "4294968,0", "11 Y,YYY 0 0"),
    ("CC", "42949674", "15 - 0 0"),
    ("Y CC", "1 42949674", "15 - 0 0"),
    ("WW", "306783380", "15 - 0 0"),
    ("YWW", "1613566758", "15 - 0 0"),
    ("W", "613566758", "15 - 0 0"),
    ("MS", "4294968", "15 - 0 0"),
];

/// Vietnamese, its letters composed and apart: a literal passes one character of the input, whichever it is.
const VIETNAMESE: &[Known] = &[
    ("\"ngày \"DD\" tháng \"MM\" năm \"YYYY", "ngày 05 tháng 09 năm 2024", "0 2024 9 5 0 0 0 0 0 none 7"),
    (
        "\"nga\u{300}y \"DD\" tha\u{301}ng \"MM\" na\u{306}m \"YYYY",
        "nga\u{300}y 05 tha\u{301}ng 09 na\u{306}m 2024",
        "0 2024 9 5 0 0 0 0 0 none 7",
    ),
    ("\"ngày \"DD\" tháng \"MM", "nga\u{300}y 05 tha\u{301}ng 09", "0 0 9 5 0 0 0 0 0 none 6"),
    ("\"ngày\" DD \"tháng\"MM", "ngày 05 tha\u{301}ng09", "7 MM 0 0"),
    ("\"nga\u{300}y\"DD", "ngày15", "0 0 1 5 0 0 0 0 0 none 4"),
    ("\"thứ\" D", "thứ 2", NOTHING),
    ("\"thu\u{31b}\u{301}\" D DD", "thư\u{301} 2 15", "0 0 1 15 0 0 0 0 0 none 4"),
    ("\"thứ\"DD", "thu\u{31b}\u{301}15", "7 DD 0 0"),
    ("HH24\" giờ \"MI\" phút \"SS\" giây\"", "07 giờ 08 phút 09 giây", "0 0 1 1 7 8 9 0 0 none 0"),
    ("ngày DD", "ngày 05", "7 y 0 0"),
    ("năm YYYY", "năm 2024", "0 2024 1 1 0 0 0 0 0 none 1"),
    ("DDtháng MM", "05tháng 09", "0 0 9 5 0 0 0 0 0 none 6"),
    ("FXDDth MM", "05ứ\u{301}x09", "0 0 9 5 0 0 0 0 0 none 6"),
    ("Month", "tháng", "9 Month 0 0"),
];

/// Whole lines: without a TAB, with two, with bytes that are no text.
const WHOLE: &[(&[u8], &str)] = &[
    (b"", NOTHING),
    (b"YYYY", NOTHING),
    (b"\t", NOTHING),
    (b"\tabc", NOTHING),
    (b"YYYY\t", NOTHING),
    (b"YYYY\t2024\t05", "0 2024 1 1 0 0 0 0 0 none 1"),
    (b"YYYY MM\t2024\t05", "0 2024 5 1 0 0 0 0 0 none 3"),
    (b"YYYY MM\t\t2024 05", "0 2024 5 1 0 0 0 0 0 none 3"),
    (b"YYYY\t2024\r", "0 2024 1 1 0 0 0 0 0 none 1"),
    (b"Mon DD\tFeb\r", "0 0 2 1 0 0 0 0 0 none 2"),
    (b"\r", NOTHING),
    (b"YYYY\r\t2024\r", "0 2024 1 1 0 0 0 0 0 none 1"),
    (b"DD\t\x0b\x0c5", "0 0 1 5 0 0 0 0 0 none 4"),
    (b"DD\t\x1f5", "7 DD 0 0"),
    (b"YYYY\t2024\0", "0 2024 1 1 0 0 0 0 0 none 1"),
    (b"\0YYYY\t\x002024", "0 2024 1 1 0 0 0 0 0 none 1"),
    (b"YYYY\0MM\t2024x05", "0 2024 5 1 0 0 0 0 0 none 3"),
    (b"DD\t\0", "7 DD 0 0"),
    (b"\xc3\t", NOT_UTF8),
    (b"\xc3\t\xa0", NOT_UTF8),
    (b"\x80YYYY\t2024", NOT_UTF8),
    (b"\"\xc0\xaf\"YYYY\tx2024", NOT_UTF8),
    (b"YYYY\t2024\xff", NOT_UTF8),
    (b"YYYY\t\xed\xa0\x80", NOT_UTF8),
    (b"YYYY\t2024 \xf4\x90\x80\x80", NOT_UTF8),
    (b"\t\xe1\x80", NOT_UTF8),
];

/// Lines as long as they may be, and longer: 769 bytes are a template of 256, the TAB and an input of 512.
fn long() -> Vec<(Vec<u8>, &'static str)> {
    let pair = |template: usize, input: usize| {
        let template = [" ".repeat(template.saturating_sub(4)).as_str(), "YYYY"].concat();
        let input = [" ".repeat(input.saturating_sub(4)).as_str(), "2024"].concat();
        [template, input].join("\t").into_bytes()
    };
    let read = "0 2024 1 1 0 0 0 0 0 none 1";
    vec![
        (pair(256, 4), read),
        (pair(257, 4), TOO_LONG),
        (pair(4, 512), read),
        (pair(4, 513), TOO_LONG),
        (pair(256, 512), read),
        (pair(257, 511), TOO_LONG),
        (pair(255, 513), TOO_LONG),
        (pair(256, 513), TOO_LONG),
        (pair(257, 512), TOO_LONG),
        (pair(4, 99_995), TOO_LONG),
        ("à".repeat(128).into_bytes(), NOTHING),
        ("à".repeat(129).into_bytes(), TOO_LONG),
        (b"\xff".repeat(256), NOT_UTF8),
        (b"\xff".repeat(257), TOO_LONG),
        (b"-".repeat(769), TOO_LONG),
        (b"-".repeat(770), TOO_LONG),
        (b"-".repeat(100_000), TOO_LONG),
    ]
}

/// Every line with its answer, in this order.
pub fn lines() -> Vec<(Vec<u8>, &'static str)> {
    let pairs = [FIRST, PROVED, EDGES, REFUSED, OTHERWISE, VIETNAMESE].concat();
    let joined = pairs.into_iter().map(|(template, input, answer)| ([template, input].join("\t").into(), answer));
    let whole = WHOLE.iter().map(|&(line, answer)| (line.to_vec(), answer));
    let marked = marks::lines().into_iter().map(|(line, answer, _)| (line, answer));
    joined.chain(whole).chain(long()).chain(marked).collect()
}
