//! strptime, timegm and strftime of the C library.

use oracle::answers::Moment;
use std::ffi::{CStr, c_char, c_int, c_long};
use std::ptr;

#[repr(C)]
#[derive(Clone, Copy)]
pub struct Tm {
    second: c_int,
    minute: c_int,
    hour: c_int,
    day: c_int,
    month: c_int,
    year: c_int,
    weekday: c_int,
    year_day: c_int,
    summer: c_int,
    offset: c_long,
    zone: *const c_char,
}

const NOTHING: Tm = Tm {
    second: 0,
    minute: 0,
    hour: 0,
    day: 0,
    month: 0,
    year: 0,
    weekday: 0,
    year_day: 0,
    summer: 0,
    offset: 0,
    zone: ptr::null(),
};

unsafe extern "C" {
    fn strptime(text: *const c_char, format: *const c_char, read: &mut Tm) -> *const c_char;
    fn timegm(read: &mut Tm) -> i64;
    fn strtol(text: *const c_char, end: *mut *mut c_char, base: c_int) -> c_long;
    fn strftime(text: *mut u8, room: usize, format: *const c_char, moment: &Tm) -> usize;
    fn snprintf(text: *mut u8, room: usize, format: *const c_char, ...) -> c_int;
}

/// The fields of a text, and the six digits behind a dot where it has a fraction, which no format reads.
pub fn read(text: &CStr, format: &CStr, fraction: bool) -> Option<(Tm, i64)> {
    let mut read = NOTHING;
    unsafe {
        let end = strptime(text.as_ptr(), format.as_ptr(), &mut read);
        if end.is_null() {
            return None;
        }
        let micros = if fraction { strtol(end.add(1), ptr::null_mut(), 10) } else { 0 };
        Some((read, micros))
    }
}

/// Microseconds since 1970-01-01.
pub fn micros(read: &mut Tm, fraction: i64) -> i64 {
    unsafe { timegm(read) * 1_000_000 + fraction }
}

pub fn of_moment(&[year, month, day, hour, minute, second, _]: &Moment) -> Tm {
    Tm { second, minute, hour, day, month: month - 1, year: year - 1900, ..NOTHING }
}

/// The length of the text that is written.
pub fn write(moment: &Tm, format: &CStr, text: &mut [u8]) -> usize {
    unsafe { strftime(text.as_mut_ptr(), text.len(), format.as_ptr(), moment) }
}

/// The same for a fraction, which no format writes.
pub fn write_fraction(micros: i32, text: &mut [u8]) -> usize {
    unsafe { snprintf(text.as_mut_ptr(), text.len(), c".%06d".as_ptr(), micros) as usize }
}
