//! The functions that the static library exports, with slices for pointers and lengths, and answers as arrays. Each
//! fills its answer and returns the first number of it.

use oracle::answers::Moment;
use sorbilgan_sys as sys;
pub use sorbilgan_sys::{ACCENTS, CARDS, NAME, NODES, STRICT};

/// The bytes of a node.
pub const NODE: usize = 6;

pub type Parts = [i64; 15];
pub type Value = [i64; 5];
pub type Nodes = [u8; NODES];
pub type Name = [u8; NAME];

/// Which export is called: the one with settings and these, or the one without.
pub type Settings = Option<u32>;

const _: () = assert!(size_of::<Parts>() == size_of::<sys::PartsAnswer>());
const _: () = assert!(size_of::<Value>() == size_of::<sys::ValueAnswer>());

/// The exports of one name, without settings and with them.
macro_rules! export {
    ($name:ident $plain:ident, $name_with:ident $with:ident, ($($given:ident: $type:ty),*) -> $answer:ty,
     ($($passed:expr),*)) => {
        pub fn $name_with(settings: Settings, $($given: $type),*) -> $answer {
            match settings {
                None => unsafe { sys::$plain($($passed),*) },
                Some(settings) => unsafe { sys::$with(settings, $($passed),*) },
            }
        }

        pub fn $name($($given: $type),*) -> $answer {
            $name_with(None, $($given),*)
        }
    };
}

/// Exports that read, with the template each time.
macro_rules! reading {
    ($name:ident $plain:ident, $name_with:ident $with:ident, $answer:ty) => {
        export!($name $plain, $name_with $with, (template: &[u8], input: &[u8], out: &mut $answer) -> u8,
            (template.as_ptr(), template.len(), input.as_ptr(), input.len(), out.as_mut_ptr().cast()));
    };
}

/// Exports that read by a compiled template.
macro_rules! reading_by {
    ($name:ident $plain:ident, $name_with:ident $with:ident, $answer:ty) => {
        export!($name $plain, $name_with $with, (nodes: &[u8], template: &[u8], input: &[u8], out: &mut $answer) -> u8,
            (nodes.as_ptr(), nodes.len(), template.as_ptr(), template.len(), input.as_ptr(), input.len(),
             out.as_mut_ptr().cast()));
    };
}

reading!(parts sorbilgan_parts, parts_with sorbilgan_parts_with, Parts);
reading!(instant sorbilgan_instant, instant_with sorbilgan_instant_with, Value);
reading!(date sorbilgan_date, date_with sorbilgan_date_with, Value);
reading_by!(parts_by sorbilgan_parts_by, parts_by_with sorbilgan_parts_by_with, Parts);
reading_by!(instant_by sorbilgan_instant_by, instant_by_with sorbilgan_instant_by_with, Value);
reading_by!(date_by sorbilgan_date_by, date_by_with sorbilgan_date_by_with, Value);

export!(write sorbilgan_write, write_with sorbilgan_write_with,
    (template: &[u8], moment: &Moment, text: &mut [u8], out: &mut Value) -> u8,
    (template.as_ptr(), template.len(), moment[0], moment[1], moment[2], moment[3], moment[4], moment[5], moment[6],
     text.as_mut_ptr(), text.len(), out.as_mut_ptr().cast()));

export!(write_by sorbilgan_write_by, write_by_with sorbilgan_write_by_with,
    (nodes: &[u8], template: &[u8], moment: &Moment, text: &mut [u8], out: &mut Value) -> u8,
    (nodes.as_ptr(), nodes.len(), template.as_ptr(), template.len(), moment[0], moment[1], moment[2], moment[3],
     moment[4], moment[5], moment[6], text.as_mut_ptr(), text.len(), out.as_mut_ptr().cast()));

// The bytes of the nodes; -1 or -2 where the template is refused, and the nodes are as they were.
export!(compile sorbilgan_compile, compile_with sorbilgan_compile_with,
    (template: &[u8], nodes: &mut Nodes) -> i64, (template.as_ptr(), template.len(), nodes));

/// 1 where a mark counts alone in a compiled template, else 0.
pub fn has_lone_mark(nodes: &[u8], template: &[u8]) -> u8 {
    unsafe { sys::sorbilgan_has_lone_mark(nodes.as_ptr(), nodes.len(), template.as_ptr(), template.len()) }
}

/// The length of a pattern's name by its place in the table.
pub fn pattern(place: u8, name: &mut Name) -> usize {
    unsafe { sys::sorbilgan_pattern(place, name) }
}
