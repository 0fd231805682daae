//! How far a line goes through a template. The reader does not say it, so the line is read again with more after it.

use sorbilgan::{Template, INPUT_LIMIT, TEMPLATE_LIMIT};

/// Whether the line, which is accepted, reaches the end of the template.
pub fn reaches_end(template: &Template, line: &[u8]) -> bool {
    goes_beyond(template, line).unwrap_or_else(|| reaches_patterns(template, line))
}

/// Whether what comes after the line is read by what comes after the template, if both have room for it.
///
/// The line is read with a full stop after it, by the template with AM after it, and by the template with BC after it.
/// No pattern reads a full stop, and each literal takes one, unless the reader skipped a space that pays for it. So if
/// the line ends before the template does, AM and BC are not reached, and both answers are the same. If not, one of
/// them at least is refused, and the answers differ.
fn goes_beyond(template: &Template, line: &[u8]) -> Option<bool> {
    let longer = [line, b"."].concat();
    let read = |pattern| {
        let text = [template.as_str(), closing(template.as_str()), pattern].concat();
        Some(Template::compile_with(text, template.settings()).ok()?.read(&longer))
    };
    let (by_one, by_other) = (read("AM")?, read("BC")?);
    (longer.len() <= INPUT_LIMIT).then_some(by_one != by_other)
}

/// Whether the line reaches all patterns: that is seen without more in the template.
///
/// The line is read with letters q after it. Each literal that was not reached takes one at most, and the first pattern
/// that was not reached is refused, because none reads a q. A line near the limit of an input may have no room for as
/// many; it then seems to reach a pattern that it does not.
fn reaches_patterns(template: &Template, line: &[u8]) -> bool {
    let room = INPUT_LIMIT.saturating_sub(line.len()).min(TEMPLATE_LIMIT + 1);
    template.read([line, &[b'q'; TEMPLATE_LIMIT + 1][..room]].concat()).is_ok()
}

/// What ends the quotes in which a template ends. A backslash that is last in them is a character, and stays one.
pub fn closing(template: &str) -> &'static str {
    let mut is_quoted = false;
    let mut characters = template.chars().peekable();
    while let Some(c) = characters.next() {
        match c {
            '"' => is_quoted = !is_quoted,
            '\\' if !is_quoted => drop(characters.next_if_eq(&'"')),
            '\\' if characters.peek().is_none() => return "\\\"",
            '\\' => drop(characters.next()),
            _ => {}
        }
    }
    if is_quoted {
        "\""
    } else {
        ""
    }
}
