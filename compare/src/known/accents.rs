//! Lines with marks, and what both character modes make of them.

/// A template, an input, the answer of the old mode and that of the new one.
type Known = (&'static str, &'static str, &'static str, &'static str);

const FIFTH: &str = "0 0 1 5 0 0 0 0 0 none 4";
const SEPTEMBER: &str = "0 0 9 5 0 0 0 0 0 none 6";
const NO_DAY: &str = "7 DD 0 0";

const KNOWN: &[Known] = &[
    // one letter in one, two and three characters, in template and input; marks in either order
    ("\"ngày\"DD", "nga\u{300}y05", NO_DAY, FIFTH),
    ("\"nga\u{300}y\"DD", "ngày05", FIFTH, FIFTH),
    ("\"nga\u{300}y\"DD", "ngày15", FIFTH, "0 0 1 15 0 0 0 0 0 none 4"),
    ("\"thứ\"DD", "thu\u{31b}\u{301}05", NO_DAY, FIFTH),
    ("\"thứ\"DD", "thu\u{301}\u{31b}05", NO_DAY, FIFTH),
    ("thu\u{301}\u{31b}DD", "thư\u{301}15", FIFTH, "0 0 1 15 0 0 0 0 0 none 4"),
    ("\"x\"DD", "x\u{300}\u{301}\u{302}\u{303}\u{304}05", NO_DAY, FIFTH),
    // the ends of the marks, and what counts as a letter
    ("\"x\"DD", "x\u{300}05", NO_DAY, FIFTH),
    ("\"x\"DD", "x\u{36f}05", NO_DAY, FIFTH),
    ("\"x\"DD", "x\u{2ff}05", NO_DAY, NO_DAY),
    ("\"x\"DD", "x\u{370}05", NO_DAY, NO_DAY),
    ("\"x\"DD", "x\u{483}05", NO_DAY, NO_DAY),
    ("\"x\"DD", "年\u{33f}05", NO_DAY, FIFTH),
    ("\"x\"DD", "😀\u{340}05", NO_DAY, FIFTH),
    ("\"x\"DD", "\u{a0}\u{301}05", NO_DAY, FIFTH),
    ("\"x\"DD", "\u{483}\u{301}05", NO_DAY, FIFTH),
    // after anything else a mark counts alone
    ("\"x\"DD", "7\u{301}05", NO_DAY, NO_DAY),
    ("\"x\"DD", "-\u{301}05", NO_DAY, NO_DAY),
    ("\"x\"DD", "\u{1}\u{301}05", NO_DAY, NO_DAY),
    ("\"x\"DD", "\u{301}\u{301}05", NO_DAY, NO_DAY),
    ("\"xx\"DD", "\u{301}\u{301}05", FIFTH, FIFTH),
    ("FX\"xx\"DD", " \u{301}05", FIFTH, FIFTH),
    // in a template after a quote, a backslash, a pattern, a suffix, a prefix that is dropped
    ("\"x\"\u{301}DD", "xx05", FIFTH, FIFTH),
    ("x\u{301}DD", "xx05", FIFTH, NO_DAY),
    ("\"\u{301}\"DD", "x05", FIFTH, FIFTH),
    ("\"x\\\u{301}\"DD", "xx05", FIFTH, FIFTH),
    ("\"\\x\u{301}\"DD", "x05", FIFTH, FIFTH),
    ("MM\u{301}DD", "09x05", SEPTEMBER, SEPTEMBER),
    ("MMth\u{301}DD", "09thx05", SEPTEMBER, SEPTEMBER),
    ("FM\u{301}DD", "x05", FIFTH, FIFTH),
    ("xFM\u{301}DD", "xx05", FIFTH, FIFTH),
    // in the input after a field, where the letter before the mark is the field's
    ("Mon\"a\"DD", "May\u{301}05", "0 0 5 5 0 0 0 0 0 none 6", "0 0 5 5 0 0 0 0 0 none 6"),
    ("Mon\"a\"DD", "May\u{301}\u{302}05", NO_DAY, NO_DAY),
    ("Mon\"a\"\u{301}YYYY", "Maya\u{301}2024", "0 2024 5 1 0 0 0 0 0 none 3", "0 24 5 1 0 0 0 0 0 none 3"),
    // two characters after a number
    ("MMthDD", "9nd\u{301}05", NO_DAY, SEPTEMBER),
    ("MMthDD", "9n\u{302}\u{301}d\u{301}05", NO_DAY, SEPTEMBER),
    ("MMthDD", "9\u{301}d\u{301}05", NO_DAY, SEPTEMBER),
    ("MMTHDD", "9\u{301}\u{301}05", SEPTEMBER, SEPTEMBER),
    // a separator of the template, where nothing is skipped beside it
    ("FXMM-DD", "09a\u{301}05", NO_DAY, SEPTEMBER),
    ("MM-DD", "09-\u{301}05", NO_DAY, NO_DAY),
];

/// The lines "template TAB input" with their answers.
pub fn lines() -> Vec<(Vec<u8>, &'static str, &'static str)> {
    KNOWN.iter().map(|(template, input, old, new)| (format!("{template}\t{input}").into_bytes(), *old, *new)).collect()
}

/// Templates, and whether a mark counts alone there in the new mode.
pub const TEMPLATES: &[(&str, bool)] = &[
    ("", false),
    ("YYYY-MM-DD", false),
    ("\"nga\u{300}y\"DD", false),
    ("a\u{300}\u{301}DD", false),
    ("\u{300}", true),
    ("\"a\u{300}\"\u{301}", true),
    ("a\u{300}FM\u{301}", true),
    ("DD\u{300}", true),
    ("DDth\u{300}", true),
    ("- \u{300}", true),
    ("7\u{300}", true),
    ("\"\\\u{300}\"", true),
    ("a\u{370}", false),
    ("\u{2ff}\u{370}", false),
];
