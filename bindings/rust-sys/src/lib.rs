//! The functions of libsorbilgan.a, as `include/sorbilgan.h` declares and describes them. The crate `sorbilgan` wraps
//! them in safe ones.
//!
//! Texts are lent as a pointer and a length. The pointer is valid for that many bytes, unless the length is 0; an
//! answer, a name and nodes to be filled are valid for writing. Nothing else is asked of a caller: any bytes and
//! numbers are safe.
//!
//! ```
//! let mut name = [0; sorbilgan_sys::NAME];
//! // SAFETY: the name has its room.
//! let length = unsafe { sorbilgan_sys::sorbilgan_pattern(9, &mut name) };
//! assert_eq!(&name[..length], b"DD");
//! ```

#![no_std]

mod version;

pub use version::VERSION;

/// The bit of the settings that counts a letter with its accents as one character.
pub const ACCENTS: u32 = 1;

/// The bit of the settings that refuses a day that its month never has, in exercises without a year.
pub const STRICT: u32 = 2;

/// The bit of the settings that sets the limits of the flash cards. Bits without a name are ignored.
pub const CARDS: u32 = 4;

/// The room for a compiled template, in bytes, whatever the settings.
pub const NODES: usize = 1536;

/// The room for a pattern's name and a final 0, in bytes.
pub const NAME: usize = 6;

/// An answer's pattern where it names none; one that is named is below it.
pub const NO_PATTERN: u8 = 112;

/// The bit of the marks for a year that is set; month and day have their own.
pub const YEAR_SET: i64 = 1;

/// The bit of the marks for a month that is set.
pub const MONTH_SET: i64 = 2;

/// The bit of the marks for a day that is set.
pub const DAY_SET: i64 = 4;

/// What every answer begins with: number 0 where nothing is refused, else the refusal's.
#[repr(C)]
#[derive(Debug, Clone, Copy, Default, PartialEq, Eq)]
pub struct Report {
    pub number: i64,
    pub pattern: i64,
    pub first_figure: i64,
    pub second_figure: i64,
}

/// The parts of a moment. A refusal leaves all but the report 0. Later versions may have more: begin with the default.
#[repr(C)]
#[derive(Debug, Clone, Copy, Default, PartialEq, Eq)]
#[non_exhaustive]
pub struct PartsAnswer {
    pub report: Report,
    pub year: i64,
    pub month: i64,
    pub day: i64,
    pub hour: i64,
    pub minute: i64,
    pub second: i64,
    pub micros: i64,
    pub precision: i64,
    pub zoned: i64,
    pub offset: i64,
    pub marks: i64,
}

/// A single value. A refusal leaves it 0.
#[repr(C)]
#[derive(Debug, Clone, Copy, Default, PartialEq, Eq)]
pub struct ValueAnswer {
    pub report: Report,
    pub value: i64,
}

const _: () = assert!(size_of::<PartsAnswer>() == 15 * size_of::<i64>());
const _: () = assert!(size_of::<ValueAnswer>() == 5 * size_of::<i64>());

unsafe extern "C" {
    pub safe fn sorbilgan_version() -> u32;
    pub safe fn sorbilgan_version_4() -> u32;
    pub fn sorbilgan_parts(
        template: *const u8, template_length: usize, input: *const u8, input_length: usize, answer: *mut PartsAnswer,
    ) -> u8;
    pub fn sorbilgan_instant(
        template: *const u8, template_length: usize, input: *const u8, input_length: usize, answer: *mut ValueAnswer,
    ) -> u8;
    pub fn sorbilgan_date(
        template: *const u8, template_length: usize, input: *const u8, input_length: usize, answer: *mut ValueAnswer,
    ) -> u8;
    pub fn sorbilgan_write(
        template: *const u8, template_length: usize, year: i32, month: i32, day: i32, hour: i32, minute: i32,
        second: i32, micros: i32, text: *mut u8, room: usize, answer: *mut ValueAnswer,
    ) -> u8;
    pub fn sorbilgan_compile(template: *const u8, template_length: usize, nodes: *mut [u8; NODES]) -> i64;
    pub fn sorbilgan_parts_by(
        nodes: *const u8, nodes_length: usize, template: *const u8, template_length: usize, input: *const u8,
        input_length: usize, answer: *mut PartsAnswer,
    ) -> u8;
    pub fn sorbilgan_instant_by(
        nodes: *const u8, nodes_length: usize, template: *const u8, template_length: usize, input: *const u8,
        input_length: usize, answer: *mut ValueAnswer,
    ) -> u8;
    pub fn sorbilgan_date_by(
        nodes: *const u8, nodes_length: usize, template: *const u8, template_length: usize, input: *const u8,
        input_length: usize, answer: *mut ValueAnswer,
    ) -> u8;
    pub fn sorbilgan_write_by(
        nodes: *const u8, nodes_length: usize, template: *const u8, template_length: usize, year: i32, month: i32,
        day: i32, hour: i32, minute: i32, second: i32, micros: i32, text: *mut u8, room: usize,
        answer: *mut ValueAnswer,
    ) -> u8;
    pub fn sorbilgan_parts_with(
        settings: u32, template: *const u8, template_length: usize, input: *const u8, input_length: usize,
        answer: *mut PartsAnswer,
    ) -> u8;
    pub fn sorbilgan_instant_with(
        settings: u32, template: *const u8, template_length: usize, input: *const u8, input_length: usize,
        answer: *mut ValueAnswer,
    ) -> u8;
    pub fn sorbilgan_date_with(
        settings: u32, template: *const u8, template_length: usize, input: *const u8, input_length: usize,
        answer: *mut ValueAnswer,
    ) -> u8;
    pub fn sorbilgan_write_with(
        settings: u32, template: *const u8, template_length: usize, year: i32, month: i32, day: i32, hour: i32,
        minute: i32, second: i32, micros: i32, text: *mut u8, room: usize, answer: *mut ValueAnswer,
    ) -> u8;
    pub fn sorbilgan_compile_with(
        settings: u32, template: *const u8, template_length: usize, nodes: *mut [u8; NODES],
    ) -> i64;
    pub fn sorbilgan_parts_by_with(
        settings: u32, nodes: *const u8, nodes_length: usize, template: *const u8, template_length: usize,
        input: *const u8, input_length: usize, answer: *mut PartsAnswer,
    ) -> u8;
    pub fn sorbilgan_instant_by_with(
        settings: u32, nodes: *const u8, nodes_length: usize, template: *const u8, template_length: usize,
        input: *const u8, input_length: usize, answer: *mut ValueAnswer,
    ) -> u8;
    pub fn sorbilgan_date_by_with(
        settings: u32, nodes: *const u8, nodes_length: usize, template: *const u8, template_length: usize,
        input: *const u8, input_length: usize, answer: *mut ValueAnswer,
    ) -> u8;
    pub fn sorbilgan_write_by_with(
        settings: u32, nodes: *const u8, nodes_length: usize, template: *const u8, template_length: usize, year: i32,
        month: i32, day: i32, hour: i32, minute: i32, second: i32, micros: i32, text: *mut u8, room: usize,
        answer: *mut ValueAnswer,
    ) -> u8;
    pub fn sorbilgan_has_lone_mark(
        nodes: *const u8, nodes_length: usize, template: *const u8, template_length: usize,
    ) -> u8;
    pub fn sorbilgan_pattern(pattern: u8, name: *mut [u8; NAME]) -> usize;
}

/// Asks the linker for this version's library, whatever else is called.
#[used]
static LINKED: extern "C" fn() -> u32 = sorbilgan_version_4;
