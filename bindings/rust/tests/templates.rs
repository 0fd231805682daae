//! What a compiled template does beside its answers: buffers, threads, memory, and the traits that it has.

use sorbilgan::{read, write, Moment, Refusal, Template};
use std::alloc::{GlobalAlloc, Layout, System};
use std::cell::Cell;
use std::collections::HashSet;
use std::str;
use std::thread;

const LEAP_DAY: Moment = Moment::midnight(2024, 2, 29);

/// The system's allocator, counting what a thread asks of it.
struct Counting;

thread_local! {
    static ALLOCATED: Cell<usize> = const { Cell::new(0) };
}

// SAFETY: every call goes on to the system's allocator, as it came.
unsafe impl GlobalAlloc for Counting {
    unsafe fn alloc(&self, layout: Layout) -> *mut u8 {
        ALLOCATED.set(ALLOCATED.get() + 1);
        System.alloc(layout)
    }

    unsafe fn dealloc(&self, at: *mut u8, layout: Layout) {
        System.dealloc(at, layout);
    }
}

#[global_allocator]
static COUNTING: Counting = Counting;

fn template(text: &str) -> Template {
    Template::compile(text).unwrap()
}

#[test]
fn reading_and_writing_allocate_nothing() {
    let full = template("YYYY-MM-DD HH24:MI:SS.US");
    // the names of the patterns are asked for once, at the first refusal
    full.read("x").unwrap_err();
    let mut text = [0; 26];
    let before = ALLOCATED.get();
    let length = full.write(&LEAP_DAY, &mut text).unwrap();
    let parts = full.read(&text[..length]);
    let refusal = full.read("2024-x");
    let after = ALLOCATED.get();
    assert_eq!(after, before);
    assert_eq!(parts.map(Moment::try_from), Ok(Ok(LEAP_DAY)));
    assert_eq!(refusal.unwrap_err().pattern(), Some("MM"));
    drop(full.clone());
    assert_ne!(ALLOCATED.get(), before, "the counter counts");
}

type Writer = Box<dyn Fn(&Moment, &mut [u8]) -> Result<usize, Refusal>>;

/// Every way to write: by a compiled template, and by one that is used once.
fn writers(text: &'static str) -> [Writer; 2] {
    let compiled = template(text);
    [Box::new(move |moment, buffer| compiled.write(moment, buffer)), Box::new(move |m, buffer| write(text, m, buffer))]
}

#[test]
fn bytes_after_the_text_stay() {
    for write in writers("DD.MM.YYYY") {
        for room in 10..20 {
            let mut buffer = vec![b'#'; room];
            assert_eq!(write(&LEAP_DAY, &mut buffer), Ok(10));
            assert_eq!(buffer, ["29.02.2024", &"#".repeat(room - 10)].concat().as_bytes());
        }
    }
}

/// Each of the eight markers writes in its own case, before noon and from noon on.
#[test]
fn markers_in_their_own_case() {
    for write in writers("HH12 AM PM A.M. P.M. am pm a.m. p.m.") {
        for (hour, text) in [
            (0, "12 AM AM A.M. A.M. am am a.m. a.m."),
            (11, "11 AM AM A.M. A.M. am am a.m. a.m."),
            (12, "12 PM PM P.M. P.M. pm pm p.m. p.m."),
            (23, "11 PM PM P.M. P.M. pm pm p.m. p.m."),
        ] {
            let mut buffer = [0; 34];
            assert_eq!(write(&Moment { hour, ..LEAP_DAY }, &mut buffer), Ok(34));
            assert_eq!(str::from_utf8(&buffer), Ok(text));
        }
    }
}

/// Each of the six patterns writes the name of the month in its own case, FM or fm before the full ones.
#[test]
fn months_by_name() {
    for write in writers("FMMonth fmmonth FMMONTH Mon mon MON") {
        for (month, text) in [
            (1, "January january JANUARY Jan jan JAN"),
            (5, "May may MAY May may MAY"),
            (6, "June june JUNE Jun jun JUN"),
            (7, "July july JULY Jul jul JUL"),
            (9, "September september SEPTEMBER Sep sep SEP"),
            (12, "December december DECEMBER Dec dec DEC"),
        ] {
            let mut buffer = [0; 41];
            let length = write(&Moment { month, day: 1, ..LEAP_DAY }, &mut buffer).unwrap();
            assert_eq!(str::from_utf8(&buffer[..length]), Ok(text));
        }
    }
}

/// The length that a buffer lacks is that of this moment's text.
#[test]
fn the_length_of_a_name_is_the_moments() {
    for write in writers("YYYYFMMonthDDSSSSSUS") {
        for (month, length) in [(5, 20), (9, 26)] {
            let moment = Moment { month, day: 1, ..LEAP_DAY };
            assert_eq!(write(&moment, &mut [0; 19]).unwrap_err().figures(), [length, 0]);
            assert_eq!(write(&moment, &mut [0; 26]), Ok(length as usize));
        }
    }
}

#[test]
fn a_refusal_leaves_the_buffer() {
    let no_leap_day = Moment { year: 2023, ..LEAP_DAY };
    for (text, moment, room, number) in
        [("DD.MM.YYYY", LEAP_DAY, 9, 21), ("DD.MM.YYYY", no_leap_day, 20, 20), ("DD.Month.YYYY", LEAP_DAY, 20, 19)]
    {
        for write in writers(text) {
            let mut buffer = vec![b'#'; room];
            assert_eq!(write(&moment, &mut buffer).unwrap_err().number(), number);
            assert_eq!(buffer, vec![b'#'; room]);
        }
    }
}

/// With `FF1` to `FF6`, a moment has the microseconds unless the instant is rounded to fewer digits.
#[test]
fn moments_of_a_precision() {
    for digits in 1..=6 {
        for places in 1..=6 {
            let fraction = &"123456"[..places];
            let parts = read(format!("SS.FF{digits}"), format!("5.{fraction}")).unwrap();
            let micros = Moment::try_from(parts).map(|moment| moment.micros).ok();
            let wanted = fraction.parse::<i32>().unwrap() * 10_i32.pow(6 - places as u32);
            assert_eq!(micros, (places <= digits).then_some(wanted), "FF{digits} and {fraction}");
        }
    }
}

#[test]
fn nothing_to_read_or_write() {
    for write in writers("") {
        assert_eq!(write(&LEAP_DAY, &mut []), Ok(0));
    }
    let parts = template("").read("").unwrap();
    assert_eq!((parts.year, parts.month, parts.day), (0, 1, 1));
}

/// A text over the longest input is written where there is room; as a `String` it is refused.
#[test]
fn a_text_too_long_to_read() {
    let long = template(&"US".repeat(128));
    assert_eq!(long.write(&LEAP_DAY, &mut [0; 768]), Ok(768));
    assert_eq!(long.format(&LEAP_DAY).unwrap_err().figures(), [768, 0]);
}

#[test]
fn threads_share_a_template() {
    let shared = template("YYYY-DDD");
    thread::scope(|scope| {
        for day in 1..=8 {
            let shared = &shared;
            scope.spawn(move || {
                for _ in 0..500 {
                    assert_eq!(shared.read(format!("2024-{day:03}")).map(|parts| parts.day), Ok(day));
                }
            });
        }
    });
    let moved = thread::spawn(move || shared.read("2024-060").map(|parts| parts.month));
    assert_eq!(moved.join().unwrap(), Ok(2));
}

#[test]
fn templates_by_their_text() {
    let years = template("YYYY");
    assert_eq!(years, years.clone());
    assert_ne!(years, template("yyyy"));
    assert_eq!(HashSet::from([years.clone(), template("YYYY"), template("MM")]).len(), 2);
    assert_eq!(format!("{years} {years:?} {years:>6}"), r#"YYYY Template("YYYY")   YYYY"#);
}
