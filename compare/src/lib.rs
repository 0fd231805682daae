//! The ported module, answering the questions that the port answers.

pub mod accents;
pub mod birthdays;
#[cfg(test)]
mod cases;
pub mod hex;
pub mod known;
pub mod lines;
pub mod modes;
pub mod moments;
pub mod pairs;
pub mod questions;
pub mod random;
pub mod readings;
mod standins;
pub mod strewn;

pub use formatting::answers;
use standins::*;

include!(concat!(env!("OUT_DIR"), "/modules.rs"));
