//! Every conversion to and from the types of the crate time, at its ends and where it is refused.

mod common;

use common::{LAST, LINES, TEMPLATE, WRONG, YEARS};
use sorbilgan::{instant, read, Moment};
use time::{Date, Month, OffsetDateTime, PrimitiveDateTime, Time};

fn primitive(moment: Moment) -> Option<PrimitiveDateTime> {
    PrimitiveDateTime::try_from(moment).ok()
}

#[test]
fn every_day_of_some_years_and_back() {
    let last = Time::from_hms_micro(23, 59, 59, 999_999).unwrap();
    for year in YEARS {
        let mut day = Date::from_calendar_date(year, Month::January, 1).unwrap();
        while day.year() == year {
            let moment = Moment::try_from(PrimitiveDateTime::new(day, last)).unwrap();
            assert_eq!((moment.year, moment.month, moment.day), (year, day.month() as i32, i32::from(day.day())));
            assert_eq!(primitive(moment), Some(PrimitiveDateTime::new(day, last)));
            day = day.next_day().unwrap();
        }
    }
}

#[test]
fn what_is_no_date_or_time() {
    assert_eq!(primitive(LAST).unwrap().to_string(), "9999-12-31 23:59:59.999999");
    for wrong in WRONG {
        assert_eq!(primitive(wrong), None, "{wrong:?}");
    }
}

#[test]
fn what_would_be_lost() {
    let day = Date::from_calendar_date(2016, Month::December, 31).unwrap();
    assert!(Moment::try_from(PrimitiveDateTime::new(day, Time::from_hms_nano(23, 59, 59, 1).unwrap())).is_err());
    assert!(OffsetDateTime::try_from(read("SS.FF3", "5.2505").unwrap()).is_err());
}

/// The time of what was read is its instant, with an offset and without.
#[test]
fn instants() {
    for line in LINES {
        let time = OffsetDateTime::try_from(read(TEMPLATE, line).unwrap()).unwrap();
        let micros = time.unix_timestamp_nanos() / 1000;
        assert_eq!(micros, i128::from(instant(TEMPLATE, line).unwrap()), "{line}");
    }
}
