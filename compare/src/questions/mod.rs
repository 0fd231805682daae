//! The questions that a seed stands for: extreme arguments in full, then random ones. The list stays the same for good.

mod calendar;
mod characters;
mod integers;
mod lines;
pub mod templates;

use crate::random::Random;
use std::collections::HashSet;

pub fn all(seed: u64) -> Vec<String> {
    let parts =
        [calendar::questions, integers::questions, templates::questions, characters::questions, lines::questions];
    // each part has numbers of its own, so that a change of one leaves the others as they are
    let mut seeds = Random::new(seed);
    let mut list = parts.map(|questions| questions(&mut Random::new(seeds.next()))).concat();
    let mut asked = HashSet::new();
    list.retain(|question| asked.insert(question.clone()));
    list
}
