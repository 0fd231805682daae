//! Reads the dates of lessons, puts them in order, and writes each as learners see it; then reads what learners typed,
//! and their birthdays, which have no year. `tests/installed` builds and runs this with an installed library.

use sorbilgan::{system_time, Cause, Moment, Settings, Template};
use std::error::Error;
use std::sync::LazyLock;
use std::time::UNIX_EPOCH;

/// How authors write the start of a lesson.
static AUTHORS: LazyLock<Template> =
    LazyLock::new(|| Template::compile("YYYY-MM-DD HH24:MI").expect("a template within the limit"));

/// How learners see it, and type it: with letters that keyboards send as one character or as several.
static LEARNERS: LazyLock<Template> = LazyLock::new(|| {
    let text = r#""ngày "DD" tháng "MM" năm "YYYY", "HH24" giờ "MI"#;
    Template::compile_with(text, Settings::new().accents(true)).expect("another")
});

/// How learners write a birthday. The template is strict, so a day that its month never has is refused.
static BIRTHDAYS: LazyLock<Template> =
    LazyLock::new(|| Template::compile_with("DD.MM", Settings::new().strict(true)).expect("a third"));

/// The same line twice; in the second each letter with accents is several characters.
const TYPED: [&str; 2] =
    ["ngày 29 tháng 02 năm 2024, 08 giờ 15", "nga\u{300}y 29 tha\u{301}ng 02 na\u{306}m 2024, 08 gio\u{31b}\u{300} 15"];

const LESSONS: [&str; 4] = ["2024-02-29 21:05", "1960-01-01 08:00", "2023-02-29 09:30", "2024-02-29 08:15"];

fn main() -> Result<(), Box<dyn Error>> {
    let mut moments = Vec::new();
    for lesson in LESSONS {
        match AUTHORS.read(lesson) {
            Ok(parts) => moments.push(Moment::try_from(parts)?),
            Err(refusal) if refusal.cause() == Cause::FieldOverflow => println!("{lesson}: {refusal}"),
            Err(refusal) => return Err(refusal.into()),
        }
    }
    moments.sort();
    for moment in moments {
        let time = system_time(AUTHORS.instant(AUTHORS.format(&moment)?)?);
        let era = if time < UNIX_EPOCH { "before" } else { "since" };
        println!("{} ({era} 1970)", LEARNERS.format(&moment)?);
    }
    for line in TYPED {
        let moment = Moment::try_from(LEARNERS.read(line)?)?;
        println!("{} from {} characters", AUTHORS.format(&moment)?, line.chars().count());
    }
    for birthday in ["29.02", "30.02", "29"] {
        match BIRTHDAYS.read(birthday) {
            Ok(parts) if parts.month_set && parts.day_set => println!("{birthday}: a birthday"),
            Ok(_) => println!("{birthday}: month or day is missing"),
            Err(refusal) => println!("{birthday}: {refusal}"),
        }
    }
    Ok(())
}
