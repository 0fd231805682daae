//! The functions that take settings, called as `sorbilgan-sys` declares them. Without the bits of the flash cards, of
//! strict reading and of accents each answers as the one without settings does; bits without a name change nothing.

use sorbilgan_sys::*;

const UNNAMED: u32 = !(ACCENTS | STRICT | CARDS);

/// Each settings with what they have to answer: those of the exercise pages, then those of the flash cards. The strict
/// bit changes nothing where there is a year, nor in writing and compiling. That of accents changes nothing without
/// accent marks, nor in writing; compiling puts it into the nodes.
fn by_settings<T: Clone>(page: T, card: T) -> Vec<(u32, T)> {
    let pages = [0, UNNAMED, STRICT, ACCENTS].map(|set| (set, page.clone()));
    let cards = [0, UNNAMED, STRICT, ACCENTS].map(|set| (CARDS | set, card.clone()));
    [pages, cards].concat()
}

fn asked<A: Default>(ask: impl FnOnce(*mut A) -> u8) -> A {
    let mut answer = A::default();
    ask(&raw mut answer);
    answer
}

fn compiled(compile: impl FnOnce(*mut [u8; NODES]) -> i64) -> (i64, [u8; NODES]) {
    let mut nodes = [0; NODES];
    (compile(&raw mut nodes), nodes)
}

// SAFETY, of all calls below: texts, nodes and buffers are lent with their lengths, and nothing else holds what is
// filled.

/// The four functions that give one answer to an input agree, up to the limit of each caller.
macro_rules! reading {
    ($name:ident: $plain:ident, $by:ident, $with:ident, $by_with:ident) => {
        #[test]
        fn $name() {
            let (t, t_length) = (b"YYYY-MM-DD".as_ptr(), 10);
            let (c_length, nodes) = compiled(|nodes| unsafe { sorbilgan_compile(t, t_length, nodes) });
            let (c, c_length) = (nodes.as_ptr(), c_length as usize);
            let line = format!("{:513}", "2024-02-29");
            let s = line.as_ptr();
            let too_long = asked(|answer| unsafe { $plain(t, t_length, s, 513, answer) });
            assert_eq!((too_long.report.number, too_long.report.pattern), (1, NO_PATTERN.into()));
            for length in [10, 96, 97, 512, 513] {
                let page = asked(|answer| unsafe { $plain(t, t_length, s, length, answer) });
                assert_eq!(page == too_long, length > 512);
                assert_eq!(asked(|answer| unsafe { $by(c, c_length, t, t_length, s, length, answer) }), page);
                for (set, wanted) in by_settings(page, if length <= 96 { page } else { too_long }) {
                    assert_eq!(asked(|answer| unsafe { $with(set, t, t_length, s, length, answer) }), wanted);
                    let by = asked(|answer| unsafe { $by_with(set, c, c_length, t, t_length, s, length, answer) });
                    assert_eq!(by, wanted);
                }
            }
        }
    };
}

reading!(parts: sorbilgan_parts, sorbilgan_parts_by, sorbilgan_parts_with, sorbilgan_parts_by_with);
reading!(instants: sorbilgan_instant, sorbilgan_instant_by, sorbilgan_instant_with, sorbilgan_instant_by_with);
reading!(dates: sorbilgan_date, sorbilgan_date_by, sorbilgan_date_with, sorbilgan_date_by_with);

/// The two functions that take settings refuse a day that its month never has by the strict bit alone.
macro_rules! strict {
    ($name:ident: $plain:ident, $with:ident, $by_with:ident) => {
        #[test]
        fn $name() {
            let (t, t_length) = (b"DD.MM".as_ptr(), 5);
            let (c_length, nodes) = compiled(|nodes| unsafe { sorbilgan_compile(t, t_length, nodes) });
            let (c, c_length) = (nodes.as_ptr(), c_length as usize);
            for (line, number) in [("29.02", 0), ("30.02", 25)] {
                let s = line.as_ptr();
                let lenient = asked(|answer| unsafe { $plain(t, t_length, s, 5, answer) });
                assert_eq!(lenient.report.number, 0);
                let mut strict = if number == 0 { lenient } else { Default::default() };
                strict.report = Report { number, ..lenient.report };
                for (bit, wanted) in [(0, lenient), (STRICT, strict)] {
                    for set in [0, UNNAMED, CARDS].map(|other| bit | other) {
                        assert_eq!(asked(|answer| unsafe { $with(set, t, t_length, s, 5, answer) }), wanted);
                        let by = asked(|answer| unsafe { $by_with(set, c, c_length, t, t_length, s, 5, answer) });
                        assert_eq!(by, wanted);
                    }
                }
            }
        }
    };
}

strict!(strict_parts: sorbilgan_parts, sorbilgan_parts_with, sorbilgan_parts_by_with);
strict!(strict_instants: sorbilgan_instant, sorbilgan_instant_with, sorbilgan_instant_by_with);
strict!(strict_dates: sorbilgan_date, sorbilgan_date_with, sorbilgan_date_by_with);

/// By the text the bit of accents counts a letter and its mark as one; by nodes they say it, and the bit is ignored.
macro_rules! accents {
    ($name:ident: $plain:ident, $by:ident, $with:ident, $by_with:ident) => {
        #[test]
        fn $name() {
            let (t, t_length) = ("\"à\"YYYY".as_ptr(), 8);
            let (s, length) = ("a\u{300}2024".as_ptr(), 7);
            let refused = asked(|answer| unsafe { $plain(t, t_length, s, length, answer) });
            assert_eq!(refused.report.number, 7);
            let accepted = asked(|answer| unsafe { $plain(b"YYYY".as_ptr(), 4, b"2024".as_ptr(), 4, answer) });
            for (bit, wanted) in [(0, refused), (ACCENTS, accepted)] {
                let (c_length, nodes) = compiled(|nodes| unsafe { sorbilgan_compile_with(bit, t, t_length, nodes) });
                let (c, c_length) = (nodes.as_ptr(), c_length as usize);
                assert_eq!(asked(|answer| unsafe { $by(c, c_length, t, t_length, s, length, answer) }), wanted);
                for set in [0, UNNAMED, STRICT, CARDS, STRICT | CARDS] {
                    let text = asked(|answer| unsafe { $with(bit | set, t, t_length, s, length, answer) });
                    assert_eq!(text, wanted);
                    for set in [set, ACCENTS | set] {
                        let by = asked(|answer| unsafe { $by_with(set, c, c_length, t, t_length, s, length, answer) });
                        assert_eq!(by, wanted);
                    }
                }
            }
        }
    };
}

accents!(accented_parts: sorbilgan_parts, sorbilgan_parts_by, sorbilgan_parts_with, sorbilgan_parts_by_with);
accents!(accented_instants: sorbilgan_instant, sorbilgan_instant_by, sorbilgan_instant_with, sorbilgan_instant_by_with);
accents!(accented_dates: sorbilgan_date, sorbilgan_date_by, sorbilgan_date_with, sorbilgan_date_by_with);

/// The bit of accents is the highest of a node's last byte.
fn with_accents(set: u32, (length, mut nodes): (i64, [u8; NODES])) -> (i64, [u8; NODES]) {
    let made = usize::try_from(length).unwrap_or(0);
    nodes[..made].chunks_mut(6).for_each(|node| node[5] |= if set & ACCENTS == 0 { 0 } else { 128 });
    (length, nodes)
}

#[test]
fn nodes() {
    let text = "-".repeat(257);
    let t = text.as_ptr();
    for length in [0, 64, 65, 256, 257] {
        let page = compiled(|nodes| unsafe { sorbilgan_compile(t, length, nodes) });
        assert_eq!(page.0, if length <= 256 { 6 * length as i64 } else { -1 });
        for (set, wanted) in by_settings(page, if length <= 64 { page } else { (-1, [0; NODES]) }) {
            let found = compiled(|nodes| unsafe { sorbilgan_compile_with(set, t, length, nodes) });
            assert_eq!(found, with_accents(set, wanted));
        }
    }
}

/// The answer of a function that writes, and its buffer.
macro_rules! written {
    ($write:ident($($argument:expr),*)) => {{
        let mut text = vec![b'#'; 300];
        let (into, room) = (text.as_mut_ptr(), text.len());
        (asked(|answer| unsafe { $write($($argument,)* 2024, 2, 29, 21, 5, 7, 9, into, room, answer) }), text)
    }};
}

/// Each dash is a node: a template of dashes and its nodes are over their limits together.
#[test]
fn texts() {
    let dashes = "-".repeat(257);
    let too_long = written!(sorbilgan_write(dashes.as_ptr(), 257));
    assert_eq!((too_long.0.report.number, too_long.0.report.pattern), (1, NO_PATTERN.into()));
    for template in ["YYYY-MM-DD HH24:MI:SS.US", &dashes[..64], &dashes[..65], &dashes[..256]] {
        let (t, t_length) = (template.as_ptr(), template.len());
        let (c_length, nodes) = compiled(|nodes| unsafe { sorbilgan_compile(t, t_length, nodes) });
        let (c, c_length) = (nodes.as_ptr(), c_length as usize);
        let page = written!(sorbilgan_write(t, t_length));
        assert_ne!(page, too_long);
        assert_eq!(written!(sorbilgan_write_by(c, c_length, t, t_length)), page);
        for (set, wanted) in by_settings(&page, if t_length <= 64 { &page } else { &too_long }) {
            assert_eq!(&written!(sorbilgan_write_with(set, t, t_length)), wanted);
            assert_eq!(&written!(sorbilgan_write_by_with(set, c, c_length, t, t_length)), wanted);
        }
    }
}
