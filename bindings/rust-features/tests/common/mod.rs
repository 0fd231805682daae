//! What both kinds of conversions are tried with.

use sorbilgan::Moment;

pub const LAST: Moment = Moment { year: 9999, month: 12, day: 31, hour: 23, minute: 59, second: 59, micros: 999_999 };

/// The years of which every day is converted, and back.
pub const YEARS: [i32; 7] = [1, 4, 1582, 1900, 1970, 2000, 2024];

/// Numbers that are no date and time.
pub const WRONG: [Moment; 12] = [
    Moment { month: 0, ..LAST },
    Moment { month: -1, ..LAST },
    Moment { month: 257, ..LAST },
    Moment { day: 32, ..LAST },
    Moment { month: 2, day: 30, ..LAST },
    Moment { hour: 24, ..LAST },
    Moment { hour: 256, ..LAST },
    Moment { minute: 60, ..LAST },
    Moment { second: 60, ..LAST },
    Moment { micros: -1, ..LAST },
    Moment { micros: 1_000_000, ..LAST },
    Moment { year: i32::MAX, ..LAST },
];

/// A template, and lines with offsets and without, before and after 1970.
pub const TEMPLATE: &str = "YYYY-MM-DD HH24:MI:SS.US TZH:TZM";
pub const LINES: [&str; 4] = [
    "2024-02-29 21:05:00.5 +05:30",
    "1960-01-01 00:00:00.000001 -15:59",
    "1969-12-31 23:59:59.999999",
    "9999-12-31 23:59:59.999999 +15:59",
];
