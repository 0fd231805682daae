use std::time::{Duration, SystemTime, UNIX_EPOCH};

/// The time of an instant, before and after 1970.
///
/// ```
/// use sorbilgan::{instant, system_time};
/// use std::time::{Duration, UNIX_EPOCH};
///
/// assert_eq!(system_time(instant("YYYY", "1970")?), UNIX_EPOCH);
///
/// let days = |count: u64| Duration::from_secs(86_400 * count);
/// assert_eq!(system_time(instant("YYYY", "1960")?), UNIX_EPOCH - days(3653));
/// assert_eq!(system_time(instant("YYYY", "1980")?), UNIX_EPOCH + days(3652));
/// # Ok::<(), sorbilgan::Refusal>(())
/// ```
#[must_use]
pub fn system_time(instant: i64) -> SystemTime {
    let distance = Duration::from_micros(instant.unsigned_abs());
    if instant < 0 {
        UNIX_EPOCH - distance
    } else {
        UNIX_EPOCH + distance
    }
}
