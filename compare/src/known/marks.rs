//! Lines that show which of year, month and day are set, and what the strict switch refuses.

/// A template, an input, the answer with the switch off, and whether the switch makes it refusal 25.
type Known = (&'static str, &'static str, &'static str, bool);

const NOTHING: &str = "0 0 1 1 0 0 0 0 0 none 0";

const KNOWN: &[Known] = &[
    // each mark by itself, and two of them
    ("IYYY", "2024", "0 2024 1 1 0 0 0 0 0 none 1", false),
    ("MM", "4", "0 0 4 1 0 0 0 0 0 none 2", false),
    ("DD", "31", "0 0 1 31 0 0 0 0 0 none 4", false),
    ("YYYY MM", "2023 2", "0 2023 2 1 0 0 0 0 0 none 3", false),
    ("YYYY DD", "2023 31", "0 2023 1 31 0 0 0 0 0 none 5", false),
    ("CC", "21", "0 2001 1 1 0 0 0 0 0 none 1", false),
    ("CC MM", "21 2", "0 2001 2 1 0 0 0 0 0 none 3", false),
    // what is read as 0 is not set, and neither is what is only looked at
    ("YYYY", "0", NOTHING, false),
    ("MM-DD", "00-00", NOTHING, false),
    ("MM-DD", "02-00", "0 0 2 1 0 0 0 0 0 none 2", false),
    ("MM-DD", "00-31", "0 0 1 31 0 0 0 0 0 none 4", false),
    ("J", "0", NOTHING, false),
    ("Q D BC", "2 3 BC", NOTHING, false),
    ("HH24:MI TZH", "12:30 +07", "0 0 1 1 12 30 0 0 0 25200 0", false),
    // a whole date by one number or by weeks
    ("J", "2460371", "0 2024 3 1 0 0 0 0 0 none 7", false),
    ("IYYY IW ID", "2024 9 4", "0 2024 2 29 0 0 0 0 0 none 7", false),
    ("IYYY IW", "2024 1", "0 2024 1 1 0 0 0 0 0 none 7", false),
    ("IW", "2", "0 0 1 10 0 0 0 0 0 none 7", false),
    ("IYYY IDDD", "2024 005", "0 2024 1 5 0 0 0 0 0 none 7", false),
    ("YYYY DDD", "2024 60", "0 2024 2 29 0 0 0 0 0 none 7", false),
    ("YYYY WW", "2024 9", "0 2024 2 26 0 0 0 0 0 none 7", false),
    // month and day without a year
    ("MM-DD", "02-29", "0 0 2 29 0 0 0 0 0 none 6", false),
    ("MM-DD", "02-31", "0 0 2 31 0 0 0 0 0 none 6", true),
    ("MM-DD", "04-30", "0 0 4 30 0 0 0 0 0 none 6", false),
    ("MM-DD", "04-31", "0 0 4 31 0 0 0 0 0 none 6", true),
    ("DD Mon", "31 Jun", "0 0 6 31 0 0 0 0 0 none 6", true),
    ("FMMonth DD", "September 31", "0 0 9 31 0 0 0 0 0 none 6", true),
    ("RM DD", "XI 31", "0 0 11 31 0 0 0 0 0 none 6", true),
    ("\"ngày \"DD\" tháng \"MM", "ngày 31 tháng 12", "0 0 12 31 0 0 0 0 0 none 6", false),
    ("MM W", "2 5", "0 0 2 29 0 0 0 0 0 none 6", false),
    ("YYYY-MM-DD", "0000-02-30", "0 0 2 30 0 0 0 0 0 none 6", true),
    ("MM-DD BC", "02-30 BC", "0 0 2 30 0 0 0 0 0 none 6", true),
    ("DDD BC", "60 BC", "0 0 2 29 0 0 0 0 0 none 6", false),
    ("MM DDD BC", "2 30 BC", "0 0 2 30 0 0 0 0 0 none 6", true),
    ("DD DDD BC", "31 92 BC", "0 0 4 31 0 0 0 0 0 none 6", true),
    // with a year 15 was always due, also in 1 BC, which is the year 0
    ("YYYY-MM-DD", "2024-04-31", "15 - 0 0", false),
    ("YYYY-MM-DD BC", "0001-02-30 BC", "15 - 0 0", false),
    ("CC MM-DD", "21 02-29", "15 - 0 0", false),
    ("J MM-DD", "2460370 04-31", "15 - 0 0", false),
    // refusals before 25
    ("HH12 MM-DD", "13 02-30", "13 - 13 0", false),
    ("DDD MM-DD", "30 01-31", "14 - 0 0", false),
    ("MS MM-DD", "2147484 02-30", "15 - 0 0", false),
    ("MM-DD", "13-31", "15 - 0 0", false),
    ("MM-DD", "02-32", "15 - 0 0", false),
    // and after it
    ("MM-DD HH24", "02-30 24", "15 - 0 0", true),
    ("MM-DD US", "02-30 1000000", "15 - 0 0", true),
    ("MM-DD TZH", "02-30 16", "16 - 0 0", true),
    ("MM-DD TZH:TZM", "02-30 -01:30", "0 0 2 30 0 0 0 0 0 -5400 6", true),
];

/// Every line with its answer, and whether the switch refuses it.
pub fn lines() -> Vec<(Vec<u8>, &'static str, bool)> {
    let joined = |&(template, input, answer, refused): &Known| ([template, input].join("\t").into(), answer, refused);
    KNOWN.iter().map(joined).collect()
}
