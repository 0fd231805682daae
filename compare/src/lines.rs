//! Lines: random ones, those of the stored lists, and answers for each of standard input.

use crate::random::Random;
use crate::{known, moments, pairs, readings};
use std::io::{self, BufRead, Write};

type Generator = fn(&mut Random) -> Vec<u8>;

pub fn generator(name: &str) -> Option<Generator> {
    match name {
        "pairs" => Some(pairs::line),
        "readings" => Some(readings::line),
        "moments" => Some(moments::arriving),
        _ => None,
    }
}

/// The known lines of a stored list, and what makes the random ones after them.
pub fn list(name: &str) -> Option<(Vec<Vec<u8>>, Generator)> {
    let first = |known: Vec<(Vec<u8>, &str)>| known.into_iter().map(|(line, _)| line).collect();
    match name {
        "parts" => Some((first(known::lines()), pairs::line)),
        "instants" | "days" => {
            Some((known::readings::lines().into_iter().map(|(line, ..)| line).collect(), readings::line))
        }
        "moments" => Some((first(known::moments::lines()), moments::arriving)),
        _ => None,
    }
}

pub fn random(generator: Generator, seed: u64, count: u64) -> impl Iterator<Item = Vec<u8>> {
    let mut random = Random::new(seed);
    (0..count).map(move |_| generator(&mut random))
}

/// An answer for each line of standard input, also for a last one without a newline.
pub fn each(out: &mut impl Write, answer: impl Fn(&[u8]) -> String) -> io::Result<()> {
    for line in io::stdin().lock().split(b'\n') {
        writeln!(out, "{}", answer(&line?))?;
    }
    Ok(())
}

/// Lines with newlines between them, none after the last.
pub fn joined(out: &mut impl Write, lines: impl Iterator<Item = Vec<u8>>) -> io::Result<()> {
    for (number, line) in lines.enumerate() {
        out.write_all(if number == 0 { b"" } else { b"\n" })?;
        out.write_all(&line)?;
    }
    Ok(())
}
