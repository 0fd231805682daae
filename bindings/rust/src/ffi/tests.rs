//! Any bytes are safe as nodes, whatever text they are lent with; and what the nodes of a template with accents are.

use super::*;
use crate::{Parts, TEMPLATE_LIMIT};
use sorbilgan_sys::NO_PATTERN;
use std::fmt::Debug;

#[allow(dead_code)]
#[path = "../../../../compare/src/random.rs"]
mod random;

use random::{all_bytes, Random};

/// The settings of the exercise pages, and of the flash cards.
const BOTH: [Settings; 2] = [Settings::new(), Settings::new().cards(true)];

const ACCENTS: Settings = Settings::new().accents(true);

/// Bytes that are often small, as those of a template's nodes are.
fn nodes(random: &mut Random, most: usize) -> Vec<u8> {
    if random.once_in(2) {
        return random.bytes(&all_bytes(), most);
    }
    random.bytes(&[0, 0, 1, 1, 1, 2, 3, 4, 5, 16, 40, 54, 99, 111], most)
}

/// Characters of dates and times, and letters with accents and without.
fn typed(random: &mut Random, most: usize) -> Vec<u8> {
    const CHARACTERS: [&str; 20] = [
        "0", "1", "2", "3", "4", "5", "6", "7", "8", "9", " ", "-", "+", ":", ".", "A", "M", "é", "\u{301}", "\u{36f}",
    ];
    let count = random.below(most + 1);
    (0..count).map(|_| random.pick(&CHARACTERS)).collect::<String>().into_bytes()
}

fn in_range(parts: &Parts) -> bool {
    (1..=12).contains(&parts.month)
        && (1..=31).contains(&parts.day)
        && (0..24).contains(&parts.hour)
        && (0..60).contains(&parts.minute)
        && (0..60).contains(&parts.second)
        && (0..1_000_000).contains(&parts.micros)
        && parts.offset.is_none_or(|seconds| seconds.abs() <= 57_540)
        && (parts.year_set || parts.year == 0)
        && (parts.month_set || parts.month == 1)
        && (parts.day_set || parts.day == 1)
}

/// Whether month and day are set, the year is not, and the month has that day in no year.
fn is_never(parts: &Parts) -> bool {
    let most = [31, 29, 31, 30, 31, 30, 31, 31, 30, 31, 30, 31][parts.month as usize - 1];
    (parts.year_set, parts.month_set, parts.day_set) == (false, true, true) && parts.day > most
}

/// What pages and cards both answer to an input within the limits of both. Nodes say themselves whether they have
/// accents, so with that setting the answer is the same.
fn by_both<A: Answer + Debug + PartialEq>(
    reader: &Reader<A>, nodes: &[u8], text: &[u8], input: &[u8],
) -> Result<A, Refusal> {
    let [page, card, accents] =
        [BOTH[0], BOTH[1], ACCENTS].map(|settings| reader.by_nodes(settings, nodes, text, input));
    assert_eq!((&page, &page), (&card, &accents));
    page
}

#[test]
fn any_nodes_are_read() {
    let mut random = Random::new(1970);
    let (mut accepted, mut refused) = (0, 0);
    for _ in 0..20_000 {
        let nodes = nodes(&mut random, 60);
        let text = random.bytes(b"YMD-\"\xc3\xa0", 40);
        let input = typed(&mut random, 40);
        match by_both(&PARTS, &nodes, &text, &input).map(Parts::answered) {
            Ok(parts) => {
                assert!(in_range(&parts), "{parts:?}");
                accepted += 1;
            }
            Err(refusal) => {
                assert!(refusal.number() <= 16, "{refusal:?}");
                refused += 1;
            }
        }
        let instant = by_both(&INSTANT, &nodes, &text, &input).err();
        assert!(instant.is_none_or(|refusal| refusal.number() <= 17));
        let day = by_both(&DATE, &nodes, &text, &input).err();
        assert!(day.is_none_or(|refusal| refusal.number() <= 16 || refusal.number() == 18));
    }
    assert!(accepted > 1000 && refused > 1000, "{accepted} accepted, {refused} refused");
}

/// Any nodes, after those of a month and a day. The strict setting refuses a day that its month never has, also where
/// the time or the offset is refused without it, and changes nothing else.
#[test]
fn any_nodes_are_read_strictly() {
    let mut random = Random::new(1970);
    let date = compile(Settings::new(), b"MM-DD ").unwrap();
    let mut never = 0;
    for _ in 0..20_000 {
        let nodes = [&date[..], &nodes(&mut random, 30)].concat();
        let (month, day) = (random.between(0, 13), random.between(0, 32));
        let input = [format!("{month:02}-{day:02} ").as_bytes(), &random.bytes(b"0123456789 -+:.AM", 30)].concat();
        let [lenient, strict] =
            [false, true].map(|set| PARTS.by_nodes(Settings::new().strict(set), &nodes, b"MM-DD ", &input));
        let is_refused = match &lenient {
            Ok(raw) => is_never(&Parts::answered(*raw)),
            Err(refusal) => matches!(refusal.number(), 15 | 16) && strict != lenient,
        };
        assert_eq!(strict, if is_refused { Err(Refusal::alone(Cause::NoSuchDay)) } else { lenient });
        never += usize::from(is_refused);
    }
    assert!((100..19_000).contains(&never), "{never} refused");
}

#[test]
fn any_nodes_are_written() {
    let mut random = Random::new(1970);
    let (mut accepted, mut refused) = (0, 0);
    for _ in 0..20_000 {
        let nodes = nodes(&mut random, 30);
        let text = random.bytes(&all_bytes(), TEMPLATE_LIMIT);
        let before = random.bytes(&all_bytes(), 600);
        let [(page, buffer), card] = BOTH.map(|settings| {
            let mut buffer = before.clone();
            (write_by(settings, &nodes, &text, &Moment::midnight(2024, 2, 29), &mut buffer), buffer)
        });
        assert_eq!((&page, &buffer), (&card.0, &card.1));
        match page {
            Ok(length) => {
                assert_eq!(buffer[length..], before[length..]);
                accepted += 1;
            }
            Err(refusal) => {
                assert_eq!(buffer, before, "{refusal:?}");
                refused += 1;
            }
        }
    }
    assert!(accepted > 1000 && refused > 1000, "{accepted} accepted, {refused} refused");
}

#[test]
fn more_nodes_than_a_template_has() {
    let moment = Moment::midnight(2024, 2, 29);
    for (settings, most) in BOTH.into_iter().zip([NODES, 384]) {
        let nodes = vec![0; most + 1];
        assert_eq!(write_by(settings, &nodes[..most], b"", &moment, &mut []), Ok(0));
        assert_eq!(write_by(settings, &nodes, b"", &moment, &mut []), Err(Refusal::alone(Cause::TooLong)));
        assert!(PARTS.by_nodes(settings, &nodes, b"", b"").is_ok());
    }
}

/// A pattern past the table is refused without a name, also where one after it is not written.
#[test]
fn no_pattern_is_not_written() {
    let nodes = [0, 0, 1, 1, 200, 0, 1, 0, 3, 1, 14, 0];
    for nodes in [&nodes[..6], &nodes] {
        let refused = write_by(Settings::new(), nodes, b"", &Moment::midnight(2024, 2, 29), &mut []);
        assert_eq!(refused, Err(Refusal::alone(Cause::NotWritten)));
    }
}

/// A node has one byte for its start, two for its length, the higher one first, one each for its kind and its pattern,
/// and one for prefix and suffix, whose highest bit is that of accents.
#[test]
fn nodes_of_accents() {
    let long = ["é", &"\u{301}".repeat(127)].concat();
    assert_eq!(long.len(), TEMPLATE_LIMIT);
    assert_eq!(compile(ACCENTS, long.as_bytes()).unwrap()[..], [0, 1, 0, 2, 0, 128]);
    assert_eq!(compile(Settings::new(), long.as_bytes()).unwrap()[..12], [0, 0, 2, 2, 0, 0, 2, 0, 2, 2, 0, 0]);

    let text = "u\u{31b}\u{301}-\u{301}DD".as_bytes();
    let each = [[0, 0, 1, 2, 0, 0], [1, 0, 2, 2, 0, 0], [3, 0, 2, 2, 0, 0], [5, 0, 1, 3, 0, 0], [6, 0, 2, 2, 0, 0]];
    assert_eq!(compile(Settings::new(), text).unwrap()[..], [&each[..], &[[8, 0, 2, 1, 9, 0]]].concat().concat());
    let accents = [[0, 0, 5, 2, 0, 128], [5, 0, 1, 3, 0, 128], [6, 0, 2, 2, 0, 128], [8, 0, 2, 1, 9, 128]];
    assert_eq!(compile(ACCENTS, text).unwrap()[..], accents.concat());
}

/// Of any nodes and any text it is asked whether a mark counts alone. Without a byte that begins a mark, none does.
#[test]
fn any_nodes_have_lone_marks() {
    let mut random = Random::new(1970);
    let (mut found, mut none) = (0, 0);
    for _ in 0..20_000 {
        let nodes = nodes(&mut random, 60);
        let text = random.bytes(b"aD-\"\xcc\x81\xcd\xb0", 40);
        let is_found = has_lone_mark(&nodes, &text);
        assert!(!is_found || text.iter().any(|byte| matches!(byte, 0xcc | 0xcd)));
        *(if is_found { &mut found } else { &mut none }) += 1;
    }
    assert!(found > 100 && none > 100, "{found} have one, {none} have none");
}

/// The table ends where a report has no pattern; no place after it has a name. A final 0 always has room.
#[test]
fn names_of_patterns() {
    let names: Vec<String> = (0..NO_PATTERN).map(pattern).collect();
    assert!(names.iter().all(|name| (1..NAME).contains(&name.len())));
    assert_eq!(names.iter().collect::<std::collections::HashSet<_>>().len(), usize::from(NO_PATTERN));
    assert!((NO_PATTERN..=u8::MAX).all(|place| pattern(place).is_empty()));
}
