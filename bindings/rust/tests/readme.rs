//! The lines that README.md shows with their answers, and its table of refusals.

mod common;
mod tables;

use sorbilgan::Cause;

/// `$ printf 'LINES' | ./run MODE`, and the answers below it.
#[test]
fn lines() {
    let mut shown = tables::README.lines();
    let mut count = 0;
    while let Some(line) = shown.next() {
        let Some(command) = line.trim_start().strip_prefix("$ printf '") else { continue };
        let Some((printed, mode)) = command.split_once("' | ./run") else { continue };
        let mode = if mode.is_empty() { "parts" } else { mode.trim() };
        for asked in printed.replace("\\t", "\t").trim_end_matches("\\n").split("\\n") {
            let wanted = shown.next().unwrap().trim_start();
            assert_eq!(common::answer(mode, asked.as_bytes()), wanted, "{mode}: {asked}");
            count += 1;
        }
    }
    assert_eq!(count, 18);
}

/// The table under "What is accepted": a template, a line, and its answer or how that begins.
#[test]
fn what_is_accepted() {
    let rows = tables::rows("What is accepted");
    assert_eq!(rows.len(), 10);
    for cells in rows {
        let line = if cells[1] == "(empty)" { "" } else { cells[1] };
        let answer = common::answer("parts", format!("{}\t{line}", cells[0]).as_bytes());
        match cells[2].strip_suffix("..") {
            Some(beginning) => assert!(answer.starts_with(beginning), "{cells:?}: {answer}"),
            None => assert_eq!(answer, cells[2], "{cells:?}"),
        }
    }
}

/// Its number, and the words that the cause has too.
#[test]
fn every_refusal_has_its_row() {
    let rows = tables::rows("Refusals");
    assert_eq!(rows.len(), Cause::ALL.len());
    for (cells, cause) in rows.iter().zip(Cause::ALL) {
        assert_eq!(cells[0], cause.number().to_string());
        assert!(cells[1].starts_with(&cause.to_string()), "{cause}: {}", cells[1]);
    }
}
