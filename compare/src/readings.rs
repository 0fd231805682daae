//! Random lines "template TAB input" for instants and days: the usual pairs, and moments around the places where
//! these answers turn.

use crate::pairs;
use crate::random::Random;
use crate::timestamp::{civil_from_days, civil_from_micros};

const DAY: i64 = 86_400_000_000;
/// 2000-01-01, from which PostgreSQL counts and away from which it rounds.
const EPOCH_2000: i64 = 946_684_800_000_000;

pub fn line(random: &mut Random) -> Vec<u8> {
    match random.below(6) {
        0 => day(random).into_bytes(),
        1 | 2 => instant(random).into_bytes(),
        _ => pairs::line(random),
    }
}

/// A year as YYYY reads it: there is no year 0, and the years before 1 are counted back from -1.
fn year_text(year: i64) -> String {
    if year < 1 { (year - 1).to_string() } else { format!("{year:04}") }
}

/// A day near the ends of the 32-bit range, near 1970 or near an end of the years 1 to 9999.
fn day(random: &mut Random) -> String {
    let near = random.pick(&[i64::from(i32::MIN), i64::from(i32::MAX), 0, -719_162, 2_932_896, 10_957]);
    let (year, month, day) = civil_from_days(near + i64::from(random.between(-3, 3)));
    format!("YYYY-MM-DD\t{}-{month:02}-{day:02}", year_text(year))
}

/// A moment near the ends of the 64-bit range, near 2000 or near 1970, to a precision, with an offset or none.
fn instant(random: &mut Random) -> String {
    let near = random.pick(&[i64::MIN, i64::MIN + EPOCH_2000, i64::MAX, EPOCH_2000, EPOCH_2000, 0]);
    let width = random.pick(&[1, 60, 50_000, 200_000, 2_000_000]);
    let away =
        i64::from(random.between(-width, width)) + random.pick(&[0, 0, 0, DAY, -DAY, 3_600_000_000, -3_600_000_000]);
    let half = random.pick(&[0, 5, 50, 500, 5_000, 50_000]);
    let (year, month, day, hour, minute, second, micros) =
        civil_from_micros(near.saturating_add(away).saturating_add(half));
    let fraction = random.pick(&["US", "FF1", "FF2", "FF3", "FF4", "FF5", "FF6"]);
    let (zone, offset) = random.pick(&[
        ("", ""),
        ("", ""),
        (" TZH:TZM", " +00:01"),
        (" TZH:TZM", " -00:01"),
        (" TZH", " +01"),
        (" TZH", " -01"),
        (" OF", " +15:59"),
        ("OF", "-15:59"),
        (" TZ", " +00"),
    ]);
    let date = format!("{}-{month:02}-{day:02}", year_text(year));
    let time = format!("{hour:02}:{minute:02}:{second:02}.{micros:06}");
    format!("YYYY-MM-DD HH24:MI:SS.{fraction}{zone}\t{date} {time}{offset}")
}
