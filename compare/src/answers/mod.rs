//! One answer line for each question line, by the ported module's own functions: this module is declared inside it.

use super::*;
use crate::accents::is_mark;
use crate::hex;
use std::fmt::Debug;
use std::str::FromStr;

mod fields;
mod marks;
pub mod measured;
mod reading;
pub mod records;
mod writing;

pub use fields::fields;
pub use marks::{LONGEST, note};
pub use reading::{Limits, cut, date, instant, line, parts, without_return};
#[cfg(test)]
pub use writing::patterns;
pub use writing::{Moment, back, is_full, micros, numbers_of, written};

pub fn answer(question: &str) -> String {
    let words: Vec<&str> = question.split(' ').collect();
    match words[..] {
        ["date2j", y, m, d] => pg_date2j(number(y), number(m), number(d)).to_string(),
        ["j2date", j] => {
            let (y, m, d) = pg_j2date(number(j));
            format!("{y} {m} {d}")
        }
        ["j2day", j] => pg_j2day(number(j)).to_string(),
        ["isoweek2j", y, w] => pg_isoweek2j(number(y), number(w)).to_string(),
        ["date2isoweek", y, m, d] => pg_date2isoweek(number(y), number(m), number(d)).to_string(),
        ["date2isoyear", y, m, d] => pg_date2isoyear(number(y), number(m), number(d)).to_string(),
        ["is_leap", y] => flag(pg_is_leap(number(y))),
        ["days_from_civil", y, m, d] => crate::timestamp::days_from_civil(number(y), number(m), number(d)).to_string(),
        ["strtol", start, text] => {
            let (value, end, overflow) = c_strtol(&hex::decode(text), number(start));
            format!("{value} {end} {}", flag(overflow))
        }
        ["parse", template] => nodes(&hex::decode(template)),
        ["mblen", at, text] => pg_mblen(&hex::decode(text), number(at)).to_string(),
        ["utf8", text] => flag(std::str::from_utf8(&hex::decode(text)).is_ok()),
        ["parts_line", text] => line(&hex::decode(text), parts),
        ["instant_line", text] => line(&hex::decode(text), instant),
        ["date_line", text] => line(&hex::decode(text), date),
        ["write_line", text] => line(without_return(&hex::decode(text)), written),
        ["parts", template, input] => reading::parts(&hex::decode(template), &hex::decode(input)),
        ["timestamp", template, input] => reading::instant(&hex::decode(template), &hex::decode(input)),
        ["date", template, input] => reading::date(&hex::decode(template), &hex::decode(input)),
        ["to_char", micros, template] => to_char(number(micros), &hex::decode(template)),
        _ => panic!("no such question: {question}"),
    }
}

fn number<T: FromStr<Err: Debug>>(word: &str) -> T {
    word.parse().expect(word)
}

fn flag(set: bool) -> String {
    u8::from(set).to_string()
}

/// The nodes of a template, FN_END at their end.
fn parse(template: &[u8]) -> Vec<FmtNode<'_>> {
    parse_format(template, true, &mut NumDesc::default()).expect("no date template is refused")
}

/// Whether a literal of a template is a mark that counts alone. One that counts with a letter begins no node.
pub fn has_lone_mark(template: &[u8]) -> bool {
    let first = |node: &FmtNode| std::str::from_utf8(node.chars).ok()?.chars().next();
    parse(template).iter().filter_map(first).any(is_mark)
}

/// The bytes of a node's name or character.
fn length(node: &FmtNode) -> usize {
    node.key.map_or(node.chars.len(), |key| key.name.len())
}

/// Whether two nodes of one text are the same pattern, or the same character at the same place.
fn same(one: &FmtNode, other: &FmtNode) -> bool {
    one.typ == other.typ
        && one.key.map(|key| key.name) == other.key.map(|key| key.name)
        && (one.key.is_some() || std::ptr::eq(one.chars, other.chars))
}

/// Where each node's name or character starts. The node of a pattern does not say so: its name ends where the
/// template, cut short, first has this node after the same nodes as the whole template.
fn starts(template: &[u8], nodes: &[FmtNode]) -> Vec<usize> {
    let mut starts = Vec::new();
    for cut in 1..=template.len() {
        let short = parse(&template[..cut]);
        let alike = short.iter().zip(nodes).take_while(|(a, b)| a.typ != FN_END && same(a, b));
        for (_, node) in alike.skip(starts.len()) {
            starts.push(cut - length(node));
        }
    }
    starts
}

/// The nodes of a template, FN_END left out: `kind:start:length:pattern:suffix`, the pattern by its place in the table.
fn nodes(template: &[u8]) -> String {
    let nodes = parse(template);
    let described = nodes.iter().zip(starts(template, &nodes)).map(|(node, start)| {
        let place = node.key.map_or(0, |key| {
            assert!(template[start..].starts_with(key.name.as_bytes()));
            let same_name = |other: &FmtKeyword| other.name == key.name;
            DCH_KEYWORDS.iter().position(same_name).unwrap()
        });
        format!("{}:{start}:{}:{place}:{}", node.typ, length(node), node.suffix)
    });
    let described: Vec<String> = described.collect();
    assert_eq!(described.len() + 1, nodes.len());
    described.join(" ")
}

/// What to_char writes for microseconds since 1970-01-01; `-` also where it gives NULL.
fn to_char(micros: i64, template: &[u8]) -> String {
    let template = std::str::from_utf8(template).expect("a template in UTF-8");
    hex::encode(writing::to_char(template, micros).as_bytes())
}
