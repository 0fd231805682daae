//! include/sorbilgan.h says what these crates say: the version, the numbers of the refusals, and the functions that
//! `rust-sys/src/lib.rs` declares, which other tests call.

use sorbilgan::{Cause, Settings, INPUT_LIMIT, TEMPLATE_LIMIT, VERSION};
use sorbilgan_sys::{
    sorbilgan_version, sorbilgan_version_4, ACCENTS, CARDS, DAY_SET, MONTH_SET, NAME, NODES, NO_PATTERN, STRICT,
    YEAR_SET,
};
use std::collections::BTreeMap;

const HEADER: &str = include_str!("../../../include/sorbilgan.h");
const DECLARATIONS: &str = include_str!("../../rust-sys/src/lib.rs");

/// `SORBILGAN_OK` is 0, and `NotUtf8` is `SORBILGAN_NOT_UTF8`, under the same number.
#[test]
fn the_same_causes() {
    let named = |line: &str| {
        let (name, number) = line.trim_start().strip_prefix("SORBILGAN_")?.split_once(" = ")?;
        let number: String = number.chars().take_while(char::is_ascii_digit).collect();
        Some((name.replace('_', ""), number))
    };
    let found: Vec<_> = HEADER.lines().filter_map(named).collect();
    let cause = |cause: &Cause| (format!("{cause:?}").to_uppercase(), cause.number().to_string());
    let wanted: Vec<_> =
        [("OK".to_string(), "0".to_string())].into_iter().chain(Cause::ALL.iter().map(cause)).collect();
    assert_eq!(found, wanted);
}

#[test]
fn the_same_sizes() {
    let named = |line: &'static str| {
        let (name, number) = line.strip_prefix("#define SORBILGAN_")?.split_once(' ')?;
        Some((name, number.trim_end_matches('u').parse().ok()?))
    };
    let found: Vec<(&str, usize)> = HEADER.lines().filter_map(named).collect();
    let cards = Settings::new().cards(true);
    let wanted = [
        ("VERSION", VERSION as usize),
        ("TEMPLATE_LIMIT", TEMPLATE_LIMIT),
        ("INPUT_LIMIT", INPUT_LIMIT),
        ("CARDS_TEMPLATE_LIMIT", cards.template_limit()),
        ("CARDS_INPUT_LIMIT", cards.input_limit()),
        ("ACCENTS", ACCENTS as usize),
        ("STRICT", STRICT as usize),
        ("CARDS", CARDS as usize),
        ("NODES", NODES),
        ("NO_PATTERN", NO_PATTERN.into()),
        ("NAME", NAME),
        ("YEAR_SET", YEAR_SET as usize),
        ("MONTH_SET", MONTH_SET as usize),
        ("DAY_SET", DAY_SET as usize),
    ];
    assert_eq!(found, wanted);
}

/// A new cause is a new version: a crate without it must not link.
#[test]
fn the_same_version() {
    assert_eq!([sorbilgan_version(), sorbilgan_version_4()], [VERSION; 2]);
    assert!(HEADER.contains(&format!("= sorbilgan_version_{VERSION};")));
    assert_eq!((VERSION, Cause::ALL.len()), (4, 22));
}

/// The fields of a struct in C or Rust, between its first line and the next brace.
fn fields(text: &str, first: &str, name: impl Fn(&str) -> Option<String>) -> Vec<String> {
    let body = text.split(first).nth(1).unwrap_or_else(|| panic!("there is no {first}")).split('}').next().unwrap();
    body.lines().filter_map(name).collect()
}

#[test]
fn the_same_fields() {
    let in_c = |line: &str| Some(line.trim().strip_prefix("int64_t ")?.split(';').next()?.to_string());
    let in_rust = |line: &str| Some(line.trim().strip_prefix("pub ")?.split(':').next()?.to_string());
    let report = fields(DECLARATIONS, "pub struct Report {", in_rust);
    for (c, rust, count) in [("parts_answer", "PartsAnswer", 15), ("value_answer", "ValueAnswer", 5)] {
        let found = fields(HEADER, &format!("struct sorbilgan_{c} {{"), in_c);
        let own = fields(DECLARATIONS, &format!("pub struct {rust} {{"), in_rust);
        assert_eq!(own[0], "report");
        assert_eq!(found, [&report, &own[1..]].concat());
        assert_eq!(found.len(), count);
    }
}

/// A type of Rust and its name in C; in an argument it is around the argument's name.
const TYPES: [(&str, &str); 12] = [
    ("*const u8", "const char *"),
    ("*const u8", "const uint8_t *"),
    ("*mut u8", "char *"),
    ("usize", "size_t"),
    ("u8", "uint8_t"),
    ("u32", "uint32_t"),
    ("i32", "int32_t"),
    ("i64", "int64_t"),
    ("*mut PartsAnswer", "struct sorbilgan_parts_answer *"),
    ("*mut ValueAnswer", "struct sorbilgan_value_answer *"),
    ("*mut [u8; NODES]", "uint8_t [SORBILGAN_NODES]"),
    ("*mut [u8; NAME]", "char [SORBILGAN_NAME]"),
];

fn in_rust(c: &str) -> &'static str {
    TYPES.iter().find(|(_, name)| *name == c).unwrap_or_else(|| panic!("no type of Rust: {c}")).0
}

/// The C type of an argument: its declaration without its name.
fn c_type(argument: &str) -> String {
    let (declared, room) = argument.split_at(argument.find('[').unwrap_or(argument.len()));
    declared.trim_end_matches(|c: char| c.is_alphanumeric() || c == '_').trim_end_matches(' ').to_string()
        + if room.is_empty() { "" } else { " " }
        + room
}

/// Each function's arguments, and after them its answer.
type Functions = BTreeMap<String, Vec<String>>;

fn of_header() -> Functions {
    let declared = HEADER.split("\n\n").filter_map(|part| {
        let part = part.rsplit("*/").next()?.trim();
        let (head, arguments) = part.strip_suffix(");")?.split_once('(')?;
        let (answer, name) = head.split_once(' ')?;
        let arguments = arguments.split(',').filter(|argument| *argument != "void");
        let arguments = arguments.map(|argument| in_rust(&c_type(argument.trim())));
        Some((name.to_string(), arguments.chain([in_rust(answer)]).map(str::to_string).collect()))
    });
    declared.collect()
}

fn of_crate() -> Functions {
    let declared = DECLARATIONS.split("fn sorbilgan_").skip(1).map(|part| {
        let (name, rest) = part.split_once('(').unwrap();
        let (arguments, rest) = rest.split_once(')').unwrap();
        let answer = rest.trim_start_matches(" -> ").split(';').next().unwrap();
        let arguments = arguments.split(',').filter_map(|argument| Some(argument.split_once(": ")?.1));
        (format!("sorbilgan_{name}"), arguments.chain([answer]).map(str::to_string).collect())
    });
    declared.collect()
}

#[test]
fn the_same_functions() {
    let (header, rust) = (of_header(), of_crate());
    assert_eq!(header, rust);
    assert_eq!(header.len(), 22);
}
