//! How many lines have which mark.

use crate::marks::Mark;
use std::fmt;

/// The count of each mark, by its place.
#[derive(Debug, Default, PartialEq)]
pub struct Count([usize; Mark::NAMES.len()]);

impl Count {
    pub fn add(&mut self, mark: &Mark) {
        self.0[mark.place()] += 1;
    }

    pub fn refused(&self) -> usize {
        self.0[Mark::NAMES.len() - 1]
    }
}

/// All lines, and then each mark that there is.
impl fmt::Display for Count {
    fn fmt(&self, f: &mut fmt::Formatter<'_>) -> fmt::Result {
        let lines: usize = self.0.iter().sum();
        write!(f, "{lines} line{}", if lines == 1 { "" } else { "s" })?;
        for (name, count) in Mark::NAMES.iter().zip(self.0).filter(|(_, count)| *count > 0) {
            write!(f, ", {count} {name}")?;
        }
        Ok(())
    }
}
