//! A letter and the accent marks right after it count as one character, and a mark after anything else counts alone: in
//! templates and in lines, and what that does to reading back. Vietnamese letters are in vietnamese.rs.

use sorbilgan::{Cause, Moment, Parts, Settings, Template};

const ACCENTS: Settings = Settings::new().accents(true);

fn template(text: &str, settings: Settings) -> Template {
    Template::compile_with(text, settings).unwrap()
}

/// The day of a line where each character counts, and with accents; none where there is no integer at DD.
fn days(text: &str, line: &str) -> [Option<i32>; 2] {
    [Settings::new(), ACCENTS].map(|settings| match template(text, settings).read(line) {
        Ok(parts) => Some(parts.day),
        Err(refusal) => {
            assert_eq!((refusal.cause(), refusal.pattern()), (Cause::NotInteger, Some("DD")), "{text}: {line}");
            None
        }
    })
}

/// What is read of a line in which the marks are taken with what is before them, and in which they are not.
const TAKEN: [Option<i32>; 2] = [None, Some(15)];
const ALONE: [Option<i32>; 2] = [None, None];

#[test]
fn every_mark_and_no_other_character() {
    for code in 0x80..0x3000 {
        let mark = char::from_u32(code).unwrap();
        let wanted = if (0x300..=0x36f).contains(&code) { TAKEN } else { ALONE };
        assert_eq!(days(r#""x"DD"#, &format!("a{mark}15")), wanted, "U+{code:04X}");
    }
    // the neighbours of the marks are letters
    for letter in ['\u{2ff}', '\u{370}'] {
        assert_eq!(days(r#""x"DD"#, &format!("{letter}\u{301}15")), TAKEN);
        assert!(!template(&format!("\"{letter}\u{301}\"DD"), ACCENTS).has_lone_mark());
    }
}

#[test]
fn after_every_ascii_character() {
    for code in 0..0x80_u8 {
        let before = char::from(code);
        let wanted = if before.is_ascii_alphabetic() { TAKEN } else { ALONE };
        assert_eq!(days(r#""x"DD"#, &format!("{before}\u{301}15")), wanted, "{before:?}");
    }
}

/// Letters of any script, and also other combining marks, symbols and a space that is not ASCII.
#[test]
fn after_other_characters() {
    for before in ["é", "я", "日", "🗓", "\u{a0}", "\u{591}", "\u{20d0}", "\u{10ffff}"] {
        assert_eq!(days(r#""x"DD"#, &format!("{before}\u{301}15")), TAKEN, "{before}");
        assert!(!template(&format!("\"{before}\u{301}\"DD"), ACCENTS).has_lone_mark());
    }
}

#[test]
fn all_marks_of_a_letter() {
    for count in [1, 2, 3, 10, 254] {
        let marks = "\u{301}".repeat(count);
        assert_eq!(days(r#""x"DD"#, &format!("a{marks}15")), TAKEN, "{count}");
    }
    let longest = ["é", &"\u{301}".repeat(127)].concat();
    assert_eq!(longest.len(), 256);
    let longest = template(&longest, ACCENTS);
    assert!(!longest.has_lone_mark());
    assert_eq!(longest.format(&Moment::midnight(2024, 2, 29)).unwrap(), longest.as_str());
}

/// In the line a mark counts alone after a digit, a space or a separator, at its start, and after another lone mark.
#[test]
fn alone_in_a_line() {
    for before in ["1", " ", "-", "\"", "\\"] {
        let line = format!("{before}\u{301}15");
        assert_eq!(days(r#""x"DD"#, &line), ALONE, "{line}");
        assert_eq!(days(r#""xx"DD"#, &line), [Some(15); 2], "{line}");
        assert_eq!(days(r#""xxx"DD"#, &format!("{before}\u{301}\u{301}15")), [Some(15); 2], "{line}");
    }
    assert_eq!(days(r#""x"DD"#, "\u{301}15"), [Some(15); 2]);
    assert_eq!(days(r#""x"DD"#, "\u{301}\u{301}15"), ALONE);
}

/// Right after a field a mark counts alone, also where the field ends in a letter.
#[test]
fn alone_after_a_field() {
    assert_eq!(days(r#"YYYY"x"DD"#, "2024\u{301}15"), [Some(15); 2]);
    assert_eq!(days(r#"Mon"x"DD"#, "Jan\u{301}15"), [Some(15); 2]);
    assert_eq!(days(r#"HH12 AM"x"DD"#, "9 pm\u{301}15"), [Some(15); 2]);
    assert_eq!(days(r#"Mon"xx"DD"#, "Jan\u{301}a\u{301}15"), TAKEN);
}

/// TH and th pass two characters, each with its marks.
#[test]
fn letters_of_a_suffix() {
    for line in ["24th\u{301}/15", "24t\u{301}h/15", "24t\u{301}h\u{301}\u{302}/15"] {
        for text in ["MIth/DD", "MITH/DD"] {
            assert_eq!(days(text, line), TAKEN, "{text}: {line}");
        }
    }
    assert_eq!(days("MIth/DD", "24th/15"), [Some(15); 2]);
    // a mark right after the field is one of the two, and one right after the suffix counts alone in the template
    assert_eq!(days("MIth/DD", "24\u{301}h/15"), [Some(15); 2]);
    assert!(template("MIth\u{301}DD", ACCENTS).has_lone_mark());
}

/// In quotes and outside, after a backslash, after FX, and with spaces that pay for literals.
#[test]
fn every_kind_of_literal() {
    for text in ["aDD", r#""a"DD"#, r#""\a"DD"#, "FXaDD", r#"FX"a"DD"#, "-aDD", "FMaDD"] {
        let before = if text.starts_with('-') { "-" } else { "" };
        assert_eq!(days(text, &format!("{before}a\u{301}15")), TAKEN, "{text}");
        assert_eq!(days(&text.replace('a', "a\u{301}"), &format!("{before}a\u{301}15"))[1], Some(15), "{text}");
        assert_eq!(days(&text.replace('a', "a\u{301}"), &format!("{before}á15"))[1], Some(15), "{text}");
    }
    assert_eq!(days(r#"MI"a"DD"#, "24 a\u{301}15"), ALONE);
}

/// Templates in which a mark counts alone, and in which none does.
#[test]
fn lone_marks() {
    for (text, is_alone) in [
        ("", false),
        ("DD", false),
        ("é", false),
        ("e\u{301}", false),
        ("\"e\u{301}\"", false),
        ("\"e\u{301}\u{302}\"DD", false),
        ("FMe\u{301}DD", false),
        ("DD\"e\u{301}\"", false),
        ("DD\"\\e\u{301}\"", false),
        ("\u{301}", true),
        ("\"\u{301}\"", true),
        ("\"e\"\u{301}", true),
        ("e\"\u{301}\"", true),
        ("\"e\\\u{301}\"", true),
        ("e\\\u{301}", true),
        ("e\\\"\u{301}", true),
        ("1\u{301}", true),
        (" \u{301}", true),
        ("-\u{301}", true),
        ("-\u{301}\u{301}", true),
        ("DD\u{301}", true),
        ("DDth\u{301}", true),
        ("FM\u{301}", true),
        ("eFM\u{301}", true),
        ("e\u{301}-\u{301}", true),
    ] {
        assert_eq!(template(text, ACCENTS).has_lone_mark(), is_alone, "{text}");
        assert_eq!(template(text, Settings::new()).has_lone_mark(), text.contains('\u{301}'), "{text}");
        assert_eq!(template(text, ACCENTS.cards(true).strict(true)).has_lone_mark(), is_alone, "{text}");
    }
}

/// What a full template writes is read back, unless a mark counts alone in it.
#[test]
fn reading_back() {
    let moment = Moment { hour: 21, minute: 5, second: 7, micros: 9, ..Moment::midnight(2024, 1, 29) };
    for text in [
        "\"nga\u{300}y \"DD/MM/YYYY HH24:MI:SS.US",
        "\"thu\u{31b}\u{301}\"DDe\u{301}MMe\u{301}YYYY SSSSS US",
        "Mon\"a\u{301}\"YYYY DD HH12:MI:SS a.m. US",
    ] {
        for settings in [Settings::new(), ACCENTS, ACCENTS.strict(true), ACCENTS.cards(true)] {
            let template = template(text, settings);
            assert_eq!(template.has_lone_mark(), settings == Settings::new());
            assert_eq!(template.read(template.format(&moment).unwrap()), Ok(Parts::from(moment)), "{text}");
        }
    }
    // the mark right after the quote counts alone, but in the text it is right after the letter
    let [each, accents] = [Settings::new(), ACCENTS].map(|settings| template("Mon\"a\"\u{301}YYYY", settings));
    assert!(accents.has_lone_mark());
    let text = accents.format(&moment).unwrap();
    assert_eq!((&text, each.format(&moment).as_ref()), (&"Jana\u{301}2024".to_string(), Ok(&text)));
    assert_eq!([&each, &accents].map(|template| template.read(&text).unwrap().year), [2024, 24]);
}
