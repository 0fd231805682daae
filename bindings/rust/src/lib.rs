//! Dates and times read and written by templates of PostgreSQL's `to_timestamp` patterns.
//!
//! This crate calls libsorbilgan.a, which is proved: each answer is the one that a short definition gives, for every
//! template and input of any bytes and length, and no input makes it trap or hang. What is proved is listed in the
//! repository's `docs/PROMISES.md`; this crate's own lines are tested, not proved.
//!
//! A [`Template`] is compiled once and reads any number of lines, with no allocation. What it reads is [`Parts`], or
//! a [`Refusal`] that says why not:
//!
//! ```
//! use sorbilgan::{Cause, Template};
//!
//! let template = Template::compile(r#""ngày "DD" tháng "MM" năm "YYYY"#)?;
//!
//! let parts = template.read("ngày 29 tháng 02 năm 2024")?;
//! assert_eq!((parts.year, parts.month, parts.day), (2024, 2, 29));
//!
//! let refusal = template.read("ngày hai mươi").unwrap_err();
//! assert_eq!(refusal.cause(), Cause::NotInteger);
//! assert_eq!(refusal.to_string(), "no integer at DD");
//! # Ok::<(), sorbilgan::Refusal>(())
//! ```
//!
//! A [`Moment`] is written by the same template, and what a full template writes is read back as that moment:
//!
//! ```
//! use sorbilgan::{Moment, Parts, Template};
//!
//! let template = Template::compile("DD.MM.YYYY HH24:MI:SS.US")?;
//! let moment = Moment { hour: 21, minute: 5, ..Moment::midnight(2024, 2, 29) };
//!
//! let text = template.format(&moment)?;
//! assert_eq!(text, "29.02.2024 21:05:00.000000");
//! assert_eq!(template.read(text), Ok(Parts::from(moment)));
//! # Ok::<(), sorbilgan::Refusal>(())
//! ```
//!
//! The functions [`read`], [`instant`], [`date`], [`write()`] and [`format()`] do the same for a template that is
//! used once.
//!
//! A template for a flash card is compiled with [`Settings`], which give it smaller limits; within them its answers are
//! the same. One for an exercise without a year, such as a birthday, is compiled with [`Settings::strict`], which
//! refuses 30 February. One for a language with accents is compiled with [`Settings::accents`], which reads ứ in each
//! of the ways that keyboards send it.
//!
//! Where a template or an input is asked for, text and bytes are both taken: a learner's line need not be UTF-8 to be
//! answered.
//!
//! # Versions
//!
//! Later versions have more causes, parts, settings and functions: match on [`Cause`] with a last arm `_`, and take
//! [`Parts`] apart with `..`. When the crate is built with a library of another version, that is an error.
//!
//! # Features
//!
//! The package in `bindings/rust` needs no third-party crate. The one in `bindings/rust-features` is the same crate
//! with three features, none of them on by default:
//!
//! - `serde`: [`Moment`], [`Parts`], [`Settings`], [`Cause`] as its number and [`Template`] as its text are `Serialize`
//!   and `Deserialize`; [`Refusal`] is `Serialize`. The numbers of moments and parts are deserialized as they are. A
//!   template is deserialized with the default settings.
//! - `chrono`: [`Moment`] from and to `NaiveDateTime`, and [`Parts`] to `DateTime<FixedOffset>`.
//! - `time`: [`Moment`] from and to `PrimitiveDateTime`, and [`Parts`] to `OffsetDateTime`.
//!
//! Each conversion is a `TryFrom` that loses nothing. A program and the crates that it depends on must all take the
//! same one of the two packages.

#![deny(unsafe_code)]
#![warn(missing_docs)]

mod cause;
#[cfg(any(feature = "chrono", feature = "time"))]
mod conversions;
mod ffi;
mod moment;
mod once;
mod parts;
mod refusal;
mod settings;
mod system_time;
mod template;
#[cfg(feature = "chrono")]
mod with_chrono;
#[cfg(feature = "serde")]
mod with_serde;
#[cfg(feature = "time")]
mod with_time;

pub use cause::{Cause, TryFromNumberError};
#[cfg(any(feature = "chrono", feature = "time"))]
pub use conversions::ConversionError;
pub use moment::{Moment, TryFromPartsError};
pub use once::{date, format, instant, read, write};
pub use parts::Parts;
pub use refusal::Refusal;
pub use settings::Settings;
pub use system_time::system_time;
pub use template::Template;

/// The version of the library, as `sorbilgan_version()` answers in C.
///
/// ```
/// assert_eq!(sorbilgan::VERSION, 4);
/// ```
pub const VERSION: u32 = sorbilgan_sys::VERSION;

/// The most bytes of a template, unless its [`Settings`] say less.
///
/// ```
/// use sorbilgan::{Cause, Template, TEMPLATE_LIMIT};
///
/// assert!(Template::compile("-".repeat(TEMPLATE_LIMIT)).is_ok());
/// assert_eq!(Template::compile("-".repeat(TEMPLATE_LIMIT + 1)).unwrap_err().cause(), Cause::TooLong);
/// ```
pub const TEMPLATE_LIMIT: usize = 256;

/// The most bytes of an input, and of a text that [`format()`] gives, unless a template's [`Settings`] say less.
///
/// ```
/// use sorbilgan::{read, Cause, INPUT_LIMIT};
///
/// assert!(read("YYYY", "2".repeat(4) + &" ".repeat(INPUT_LIMIT - 4)).is_ok());
/// assert_eq!(read("YYYY", " ".repeat(INPUT_LIMIT + 1)).unwrap_err().cause(), Cause::TooLong);
/// ```
pub const INPUT_LIMIT: usize = 512;

// The Rust of the repository's README is run with the documentation's.
#[cfg(doctest)]
#[doc = include_str!("../../../README.md")]
struct Readme;
