//! The stored lists of the line program, asked of the crate.

mod common;

use common::{answer, cut, moment, without_return};
use sorbilgan::{Parts, Template};
use std::path::Path;
use std::{fs, str};

/// The bytes of a file of the repository.
fn file(path: &str) -> Vec<u8> {
    let path = Path::new(env!("CARGO_MANIFEST_DIR")).join("../..").join(path);
    fs::read(&path).unwrap_or_else(|why| panic!("{}: {why}", path.display()))
}

/// The lines of a list; the last may have no newline.
fn lines(path: &str) -> Vec<Vec<u8>> {
    let bytes = file(path);
    bytes.strip_suffix(b"\n").unwrap_or(&bytes).split(|byte| *byte == b'\n').map(<[u8]>::to_vec).collect()
}

/// Each line of a list is answered as stored.
fn replay(mode: &str, asked: &str, answers: &str, least: usize) {
    let (asked, answers) = (lines(asked), lines(answers));
    assert_eq!(asked.len(), answers.len());
    assert!(asked.len() >= least);
    for (line, wanted) in asked.iter().zip(&answers) {
        assert_eq!(answer(mode, line), str::from_utf8(wanted).unwrap(), "{mode}: {}", String::from_utf8_lossy(line));
    }
}

#[test]
fn parts() {
    replay("parts", "crates/dates/stdin", "crates/dates/stdout", 3204);
}

#[test]
fn instants() {
    replay("instant", "crates/dates/lists/instants.in", "crates/dates/lists/instants.out", 1072);
}

#[test]
fn days() {
    replay("date", "crates/dates/lists/days.in", "crates/dates/lists/days.out", 1072);
}

#[test]
fn texts() {
    replay("write", "crates/dates/lists/moments.in", "crates/dates/lists/moments.out", 3153);
}

/// moments.back has the seven numbers, the instant and the day where the template is full, else `-`.
#[test]
fn read_back() {
    let mut count = 0;
    for (line, back) in lines("crates/dates/lists/moments.in").iter().zip(lines("crates/dates/lists/moments.back")) {
        if back == b"-" {
            continue;
        }
        count += 1;
        let (template, numbers) = cut(without_return(line));
        let moment = moment(numbers);
        let template = Template::compile(template).unwrap();
        let text = template.format(&moment).unwrap();
        assert_eq!(template.read(&text), Ok(Parts::from(moment)), "{template}: {text}");

        let back: Vec<i64> = str::from_utf8(&back).unwrap().split(' ').map(|word| word.parse().unwrap()).collect();
        assert_eq!(template.instant(&text), Ok(back[7]), "{template}: {text}");
        assert_eq!(template.date(&text).map(i64::from), Ok(back[8]), "{template}: {text}");
    }
    assert_eq!(count, 2260);
}
