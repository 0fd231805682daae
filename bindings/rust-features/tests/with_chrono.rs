//! Every conversion to and from chrono's types, at its ends and where it is refused.

mod common;

use chrono::{DateTime, Datelike, FixedOffset, NaiveDate, NaiveDateTime, TimeZone, Utc};
use common::{LAST, LINES, TEMPLATE, WRONG, YEARS};
use sorbilgan::{instant, read, Moment};

fn naive(moment: Moment) -> Option<NaiveDateTime> {
    NaiveDateTime::try_from(moment).ok()
}

#[test]
fn every_day_of_some_years_and_back() {
    for year in YEARS {
        let mut day = NaiveDate::from_ymd_opt(year, 1, 1).unwrap();
        while day.year() == year {
            let time = day.and_hms_micro_opt(23, 59, 59, 999_999).unwrap();
            let moment = Moment::try_from(time).unwrap();
            assert_eq!((moment.year, moment.month as u32, moment.day as u32), (year, day.month(), day.day()));
            assert_eq!(naive(moment), Some(time));
            day = day.succ_opt().unwrap();
        }
    }
}

#[test]
fn what_is_no_date_or_time() {
    assert_eq!(naive(LAST).unwrap().to_string(), "9999-12-31 23:59:59.999999");
    for wrong in WRONG {
        assert_eq!(naive(wrong), None, "{wrong:?}");
    }
}

/// A nanosecond and a leap second are finer than a moment.
#[test]
fn what_would_be_lost() {
    let day = NaiveDate::from_ymd_opt(2016, 12, 31).unwrap();
    assert!(Moment::try_from(day.and_hms_nano_opt(23, 59, 59, 1).unwrap()).is_err());
    assert!(Moment::try_from(day.and_hms_micro_opt(23, 59, 59, 1_000_000).unwrap()).is_err());
    assert!(DateTime::<FixedOffset>::try_from(read("SS.FF3", "5.2505").unwrap()).is_err());
}

/// The time of what was read is its instant, with an offset and without.
#[test]
fn instants() {
    for line in LINES {
        let time = DateTime::<FixedOffset>::try_from(read(TEMPLATE, line).unwrap()).unwrap();
        assert_eq!(time.timestamp_micros(), instant(TEMPLATE, line).unwrap(), "{line}");
    }
    let utc = DateTime::<FixedOffset>::try_from(read("YYYY", "2024").unwrap()).unwrap();
    assert_eq!(utc, Utc.with_ymd_and_hms(2024, 1, 1, 0, 0, 0).unwrap());
}

/// The first and last days that chrono has are converted, unless the time in UTC is outside. The year before year 0 is
/// 2 BC, which is read from -2.
#[test]
fn ends_of_years() {
    let (first, last) = (NaiveDate::MIN.year() - 1, NaiveDate::MAX.year());
    let template = "YYYY-MM-DD HH24:MI TZH:TZM";
    let converted = |line: &str| DateTime::<FixedOffset>::try_from(read(template, line).unwrap()).ok();
    for line in [format!("{first}-01-01 00:00 -15:59"), format!("{last}-12-31 23:59 +15:59")] {
        assert_eq!(converted(&line).map(|time| time.timestamp_micros()), instant(template, &line).ok(), "{line}");
    }
    for line in [
        format!("{first}-01-01 00:00 +15:59"),
        format!("{last}-12-31 23:59 -15:59"),
        format!("{}-01-01 00:00 +00:00", last + 1),
    ] {
        assert_eq!(converted(&line), None, "{line}");
    }
}
