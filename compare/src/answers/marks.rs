//! Which of year, month and day are set, as the module itself notes it, and what the strict switch refuses.

use std::cell::Cell;

const MONTH: u8 = 2;
const DAY: u8 = 4;
/// The most days that each month has, February in a leap year.
pub const LONGEST: [i32; 12] = [31, 29, 31, 30, 31, 30, 31, 31, 30, 31, 30, 31];

/// What was set when the date was checked: year 1, month 2, day 4. A month and a day that are set are within 1 to 12
/// and 1 to 31.
#[derive(Clone, Copy)]
pub struct Noted {
    pub marks: u8,
    month: i32,
    day: i32,
}

thread_local! {
    static NOTED: Cell<Option<Noted>> = const { Cell::new(None) };
}

/// The module calls this when it has checked the date, and not where it refuses before (build.rs).
pub fn note(marks: u8, month: i32, day: i32) {
    NOTED.set(Some(Noted { marks, month, day }));
}

/// What a call of the module gives, and what it noted, if it came so far.
pub fn noted<T>(call: impl FnOnce() -> T) -> (T, Option<Noted>) {
    NOTED.set(None);
    let given = call();
    (given, NOTED.take())
}

impl Noted {
    /// A day that its month can never have, where month and day are set and the year is not.
    pub fn is_never(&self) -> bool {
        self.marks == MONTH | DAY && self.day > LONGEST[self.month as usize - 1]
    }
}
