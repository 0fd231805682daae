//! Questions about days, weeks and years, whose 32-bit sums wrap.

use crate::random::Random;

/// Years of every kind. Around -5,888,317, -4,800, 5,878,717 and the ends of the range a sum wraps or a quotient turns.
const YEARS: [i32; 44] = [
    -2_147_483_648, -2_147_483_647, -2_147_483_249, -5_888_318, -5_888_317, -4_801, -4_800, -4_799, -4_714, -4_713,
    -4_712, -401, -400, -100, -4, -1, 0, 1, 3, 4, 99, 100, 400, 1_582, 1_899, 1_900, 1_970, 1_999, 2_000, 2_004, 2_020,
    2_021, 2_024, 2_100, 9_999, 10_000, 294_277, 5_874_897, 5_878_716, 5_878_717, 2_147_478_847, 2_147_478_848,
    2_147_483_646, 2_147_483_647,
];

/// Months that there are and that there are not. At -274,137, 274,123 and the ends a sum or a product wraps.
const MONTHS: [i32; 17] = [
    -2_147_483_648, -274_137, -274_136, -13, -1, 0, 1, 2, 3, 11, 12, 13, 14, 274_122, 274_123, 2_147_483_646,
    2_147_483_647,
];

const DAYS: [i32; 11] = [-2_147_483_648, -1, 0, 1, 28, 29, 30, 31, 32, 366, 2_147_483_647];

/// Weeks. At -306,783,378, 306,783,380 and the ends a difference or a product wraps.
const WEEKS: [i32; 13] =
    [-2_147_483_648, -306_783_378, -306_783_377, -1, 0, 1, 2, 52, 53, 54, 306_783_379, 306_783_380, 2_147_483_647];

/// Julian days at which a sum wraps, a quotient turns or the calendar does.
const JULIAN: [i32; 40] = [
    -2_147_483_648, -2_147_483_647, -2_147_483_642, -1_073_741_824, -32_105, -32_104, -32_046, -32_045, -32_044,
    -32_043, -8, -7, -2, -1, 0, 1, 59, 60, 365, 366, 1_461, 114_053, 146_096, 146_097, 1_721_059, 1_721_060, 1_721_119,
    1_721_120, 1_721_425, 1_721_426, 2_299_161, 2_440_587, 2_440_588, 2_451_545, 2_451_604, 5_373_484, 5_373_485,
    2_147_483_493, 2_147_483_646, 2_147_483_647,
];

/// A year of the calendar, a year of the list, or any number.
fn year(random: &mut Random) -> i32 {
    match random.below(4) {
        0 => random.pick(&YEARS),
        1 => random.next() as i32,
        _ => random.between(1, 9999),
    }
}

fn dates_of_years(name: &str, dates: &[(i32, i32)]) -> Vec<String> {
    let of_year = |year| dates.iter().map(move |(m, d)| format!("{name} {year} {m} {d}"));
    YEARS.into_iter().flat_map(of_year).collect()
}

/// Dates that there are, but for days past their month's end.
fn random_dates(random: &mut Random, name: &str, count: usize) -> Vec<String> {
    let mut date = || {
        let (y, m, d) = (year(random), random.between(1, 12), random.between(1, 31));
        format!("{name} {y} {m} {d}")
    };
    (0..count).map(|_| date()).collect()
}

fn day_numbers(random: &mut Random) -> Vec<String> {
    let mut list = dates_of_years("date2j", &[(1, 1), (2, 28), (2, 29), (3, 1), (12, 31)]);
    for m in MONTHS {
        list.extend(DAYS.map(|d| format!("date2j 2024 {m} {d}")));
    }
    list.extend(random_dates(random, "date2j", 60));
    for _ in 0..60 {
        let mut any = || random.next() as i32;
        list.push(format!("date2j {} {} {}", any(), any(), any()));
    }
    list.extend(dates_of_years("days_from_civil", &[(1, 1), (2, 29), (3, 1), (12, 31)]));
    list.extend(random_dates(random, "days_from_civil", 80));
    list
}

fn days(random: &mut Random) -> Vec<String> {
    let mut list = Vec::new();
    for name in ["j2date", "j2day"] {
        list.extend(JULIAN.map(|j| format!("{name} {j}")));
        for _ in 0..60 {
            let j = match random.below(2) {
                0 => random.between(1_721_426, 5_373_484),
                _ => random.next() as i32,
            };
            list.push(format!("{name} {j}"));
        }
    }
    list
}

fn weeks(random: &mut Random) -> Vec<String> {
    let mut list = Vec::new();
    for name in ["date2isoweek", "date2isoyear"] {
        list.extend(dates_of_years(name, &[(1, 1), (12, 31)]));
        list.extend(DAYS.map(|d| format!("{name} 2021 1 {d}")));
        list.extend(random_dates(random, name, 60));
    }
    for y in YEARS {
        list.extend([1, 53].map(|w| format!("isoweek2j {y} {w}")));
    }
    list.extend(WEEKS.map(|w| format!("isoweek2j 2020 {w}")));
    for _ in 0..60 {
        let (y, w) = (year(random), random.between(1, 53));
        list.push(format!("isoweek2j {y} {w}"));
    }
    list
}

fn leap_years(random: &mut Random) -> Vec<String> {
    let mut years = YEARS.to_vec();
    years.extend((0..60).map(|_| year(random)));
    years.into_iter().map(|y| format!("is_leap {y}")).collect()
}

pub fn questions(random: &mut Random) -> Vec<String> {
    let parts = [day_numbers, days, weeks, leap_years];
    parts.map(|part| part(random)).concat()
}
