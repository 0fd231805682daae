//! The two character modes: the ported module as it is, and the copy of it that measures characters by `accents`.

use crate::answers::Moment;
use crate::{accented, formatting};

/// The answers with the strict switch off and on. With it there is refusal 25 where it is due, and else the same.
#[derive(Clone, Copy)]
pub struct Switched<const WORDS: usize> {
    pub off: [i64; WORDS],
    pub on: [i64; WORDS],
}

/// A record and the text that goes with it.
pub type Written = ([i64; 5], String);

/// A module's answers, which `answers/records.rs` describes.
pub struct Module {
    pub accents: bool,
    pub parts: fn(&[u8], &[u8]) -> Switched<15>,
    pub instant: fn(&[u8], &[u8]) -> Switched<5>,
    pub date: fn(&[u8], &[u8]) -> Switched<5>,
    pub written: fn(&[u8], &Moment, usize) -> Written,
    pub compiled: fn(&[u8]) -> i64,
    pub has_lone_mark: fn(&[u8]) -> bool,
}

macro_rules! module {
    ($module:ident, accents: $accents:expr) => {{
        use $module::answers::{has_lone_mark, records};
        Module {
            accents: $accents,
            parts: records::parts,
            instant: records::instant,
            date: records::date,
            written: records::written,
            compiled: records::compiled,
            has_lone_mark,
        }
    }};
}

pub static OLD: Module = module!(formatting, accents: false);
pub static NEW: Module = module!(accented, accents: true);
