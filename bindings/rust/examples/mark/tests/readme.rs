//! What README.md shows of the program.

use super::answer;
use std::fs;

/// The words of a command, of which some are in single quotes.
fn words(command: &str) -> Vec<String> {
    let mut words = vec![String::new()];
    for (at, piece) in command.split('\'').enumerate() {
        let is_quoted = at % 2 == 1;
        for (k, part) in piece.split(' ').enumerate() {
            match k {
                0 => *words.last_mut().unwrap() += part,
                _ if is_quoted => *words.last_mut().unwrap() += &format!(" {part}"),
                _ => words.push(part.to_string()),
            }
        }
    }
    words
}

#[test]
fn words_of_a_command() {
    assert_eq!(words(r#"--json '"a "DD' b'c d'"#), ["--json", r#""a "DD"#, "bc d"]);
}

/// What printf prints: `\n` is a newline, and `\u` with four digits a character.
fn printed(text: &str) -> String {
    let mut pieces = text.split("\\u");
    let mut shown = pieces.next().unwrap_or_default().to_string();
    for piece in pieces {
        let (code, rest) = piece.split_at(4);
        shown.push(u32::from_str_radix(code, 16).ok().and_then(char::from_u32).unwrap());
        shown += rest;
    }
    shown.replace("\\n", "\n")
}

/// `$ printf 'LINES' | cargo run -q --example mark -- ARGUMENTS`; below it are the output, and the counts last.
#[test]
fn commands() {
    let readme = fs::read_to_string(concat!(env!("CARGO_MANIFEST_DIR"), "/../../README.md")).unwrap();
    let mut shown = readme.lines().peekable();
    let mut count = 0;
    while let Some(line) = shown.next() {
        let Some(command) = line.strip_prefix("$ printf '") else { continue };
        let Some((lines, arguments)) = command.split_once("' | cargo run -q --example mark -- ") else { continue };
        let mut wanted = String::new();
        while let Some(line) = shown.next_if(|line| !line.starts_with("$ ") && !line.starts_with("```")) {
            wanted += &format!("{line}\n");
        }
        let words = words(arguments);
        let arguments: Vec<&str> = words.iter().map(String::as_str).collect();
        let answer = answer(&arguments, printed(lines));
        assert_eq!(format!("{}{}", answer.output(), answer.errors), wanted, "{arguments:?}");
        count += 1;
    }
    assert_eq!(count, 5);
}
