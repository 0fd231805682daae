//! A target of libFuzzer: a mode, then texts with TABs between them. A difference, or an answer that is none, stops it.
//!
//! | mode | texts | what is done |
//! |---|---|---|
//! | `w` | template, moment | written by it, here and by the ported module |
//! | `n` | template, bytes, input | read and written by nodes of which some bytes are changed |
//! | `x` | template, another, input | read and written by the nodes of the other template |
//! | any other | template, input | read by it, here and by the ported module |
//!
//! With a capital letter the template is compiled and read in the new character mode. All callers do this, the exercise
//! pages and the flash cards, strict and not. Beside the ported module their settings also have the mode's bits, moved
//! up to 8 and above, where they mean nothing.
#![no_main]

use exports::agreement::{self, Template};
use exports::archive::{self, ACCENTS, CARDS, NODE, NODES, STRICT, Settings};
use exports::guarded::Guarded;
use oracle::answers::{LONGEST, Limits, Moment, cut, numbers_of, records};
use oracle::modes::{NEW, OLD};
use oracle::questions::templates;
use oracle::random::Random;
use oracle::{birthdays, moments, pairs, strewn};
use std::cell::RefCell;
use std::ffi::{c_int, c_uint};

const MODES: &[u8] = b"rrwnxRRWNX";
const UNSET: i64 = i64::MIN;
const FILLER: u8 = 0xa5;
const NONE: i64 = 112;
const LAST_REFUSAL: i64 = 21;
const NEVER: i64 = 25;
/// Accepted, or refused for a time, an offset, an instant or a day: what comes after the month's length.
const AFTER: [i64; 5] = [0, 15, 16, 17, 18];
/// Of a parts record: month and day, and the marks of both without a year.
const MONTH: usize = 5;
const DAY: usize = 6;
const MARKS: usize = 14;
const NO_YEAR: i64 = 6;

thread_local! {
    static GUARDED: RefCell<[Guarded; 4]> = RefCell::default();
}

unsafe extern "C" {
    fn LLVMFuzzerMutate(data: *mut u8, size: usize, most: usize) -> usize;
}

#[unsafe(no_mangle)]
pub extern "C" fn LLVMFuzzerTestOneInput(data: *const u8, size: usize) -> c_int {
    let bytes = unsafe { std::slice::from_raw_parts(data, size) };
    let Some((mode, texts)) = bytes.split_first() else { return 0 };
    let (template, rest) = cut(texts);
    let bits = u32::from(*mode) << 3;
    let module = if mode.is_ascii_uppercase() { &NEW } else { &OLD };
    GUARDED.with_borrow_mut(|[of_template, of_input, of_nodes, of_text]| {
        let template = of_template.lend(template);
        match mode.to_ascii_lowercase() {
            kind @ (b'n' | b'x') => {
                let (second, input) = cut(rest);
                let settings = module.accents.then_some(ACCENTS);
                let nodes = if kind == b'n' { changed(settings, template, second) } else { nodes_of(settings, second) };
                by_any_nodes(of_nodes.lend(&nodes), template, of_input.lend(input), of_text);
            }
            b'w' => agreed(|| agreement::write(&Template::compiled(module, template, bits)?, &moment(rest), 512)),
            _ => agreed(|| agreement::read(&Template::compiled(module, template, bits)?, of_input.lend(rest))),
        }
    });
    0
}

fn agreed<T>(check: impl FnOnce() -> agreement::Agreement<T>) {
    if let Err(difference) = check() {
        panic!("{difference}");
    }
}

/// Seven numbers as text, or else as they stand in the bytes.
fn moment(bytes: &[u8]) -> Moment {
    let word = |at: usize| {
        let mut word = [0; 4];
        word.iter_mut().zip(bytes.iter().skip(4 * at)).for_each(|(to, from)| *to = *from);
        i32::from_le_bytes(word)
    };
    numbers_of(bytes).unwrap_or_else(|| std::array::from_fn(word))
}

/// The nodes of a template; bytes that have none are nodes themselves.
fn nodes_of(settings: Settings, template: &[u8]) -> Vec<u8> {
    let mut nodes = [0; NODES];
    let length = archive::compile_with(settings, template, &mut nodes);
    if length < 0 { template.to_vec() } else { nodes[..length as usize].to_vec() }
}

/// The nodes of a template, changed at places by three bytes each: the place and the byte that is put there.
fn changed(settings: Settings, template: &[u8], changes: &[u8]) -> Vec<u8> {
    let mut nodes = nodes_of(settings, template);
    let length = nodes.len().max(1);
    for change in changes.chunks_exact(3) {
        let place = usize::from(u16::from_le_bytes([change[0], change[1]])) % length;
        nodes[place..].iter_mut().take(1).for_each(|byte| *byte = change[2]);
    }
    nodes
}

/// Whatever the nodes are, the answer is a record, and of the buffer only the text is written.
fn by_any_nodes(nodes: &[u8], template: &[u8], input: &[u8], of_text: &mut Guarded) {
    let within = Limits::CARDS.hold(&[], input);
    let parts = all(within, |with, out: &mut archive::Parts| archive::parts_by_with(with, nodes, template, input, out));
    let [lenient, strict] = parts;
    let is_never = strict[0] == NEVER;
    assert!(lenient[0] != 0 || is_never == never(&lenient), "{lenient:?} is strictly {strict:?}");
    switched(is_never, parts);
    let instants = |with, out: &mut archive::Value| archive::instant_by_with(with, nodes, template, input, out);
    switched(is_never, all(within, instants));
    let dates = |with, out: &mut archive::Value| archive::date_by_with(with, nodes, template, input, out);
    switched(is_never, all(within, dates));
    write_by_any_nodes(nodes, template, input, of_text);
    assert!(archive::has_lone_mark(nodes, template) <= 1);
}

/// A day that its month can never have, where month and day are set and the year is not.
fn never(parts: &archive::Parts) -> bool {
    parts[MARKS] == NO_YEAR && parts[DAY] > LONGEST[parts[MONTH] as usize - 1].into()
}

/// The switch refuses all that is read of an input, or nothing, and only what came so far as to the month's length.
fn switched<const WORDS: usize>(is_never: bool, [lenient, strict]: [[i64; WORDS]; 2]) {
    let is_switched = strict[0] == NEVER && AFTER.contains(&lenient[0]);
    assert!(if is_never { is_switched } else { strict == lenient }, "{lenient:?} is strictly {strict:?}");
}

/// The same of writing, which the switch does not change.
fn write_by_any_nodes(nodes: &[u8], template: &[u8], input: &[u8], of_text: &mut Guarded) {
    let within = nodes.len() <= NODE * Limits::CARDS.template;
    let mut texts = Vec::new();
    let [lenient, strict] = all(within, |settings, out: &mut archive::Value| {
        let text = of_text.lend(&vec![FILLER; input.len()]);
        let number = archive::write_by_with(settings, nodes, template, &moment(input), text, out);
        let (text, rest) = text.split_at(if number == 0 { out[4] as usize } else { 0 });
        assert!(rest.iter().all(|byte| *byte == FILLER), "a byte after the text is written");
        texts.push(text.to_vec());
        number
    });
    assert!(lenient == strict && texts[0] == texts[2], "the switch changes a text");
    assert!(!within || texts.iter().all(|text| *text == texts[0]), "the callers have two texts");
}

/// The pages' records, lenient and strict. The cards' are the same where what is lent is within their limits, and else
/// refusal 1.
fn all<const WORDS: usize>(
    within: bool, mut export: impl FnMut(Settings, &mut [i64; WORDS]) -> u8,
) -> [[i64; WORDS]; 2] {
    [(None, CARDS), (Some(STRICT), STRICT | CARDS)].map(|(of_pages, of_cards)| {
        let pages = record(|out| export(of_pages, out));
        let cards = record(|out| export(Some(of_cards), out));
        assert_eq!(cards, records::limited(within, pages));
        pages
    })
}

fn record<const WORDS: usize>(export: impl FnOnce(&mut [i64; WORDS]) -> u8) -> [i64; WORDS] {
    let mut words = [UNSET; WORDS];
    let number = i64::from(export(&mut words));
    assert!(words[0] == number && !words.contains(&UNSET), "no record: {number} {words:?}");
    let is_refusal = (1..=LAST_REFUSAL).contains(&number) || number == NEVER;
    let refused = is_refusal && words[4..].iter().all(|value| *value == 0);
    assert!(refused || words[..4] == [0, NONE, 0, 0], "neither accepted nor refused: {words:?}");
    words
}

/// Half of the changes are libFuzzer's own; the others put in what templates and inputs are made of.
#[unsafe(no_mangle)]
pub extern "C" fn LLVMFuzzerCustomMutator(data: *mut u8, size: usize, most: usize, seed: c_uint) -> usize {
    let mut random = Random::new(seed.into());
    if random.once_in(2) {
        return unsafe { LLVMFuzzerMutate(data, size, most) };
    }
    let mut bytes = unsafe { std::slice::from_raw_parts(data, size) }.to_vec();
    change(&mut random, &mut bytes);
    bytes.truncate(most);
    unsafe { data.copy_from(bytes.as_ptr(), bytes.len()) };
    bytes.len()
}

fn change(random: &mut Random, bytes: &mut Vec<u8>) {
    let (template, _) = cut(bytes.get(1..).unwrap_or_default());
    let [read, written] = [random.pick(b"rR"), random.pick(b"wW")];
    match random.below(9) {
        0 => *bytes = [vec![read], pairs::line(random)].concat(),
        1 => *bytes = [vec![written], moments::line(random)].concat(),
        2 => *bytes = [vec![read], birthdays::line(random)].concat(),
        3 => {
            let line = if random.once_in(2) { birthdays::line(random) } else { pairs::line(random) };
            *bytes = [vec![random.pick(MODES)], pairs::template(random), b"\t".to_vec(), line].concat();
        }
        4 => {
            let input = pairs::input(random, template);
            *bytes = [&[read], template, b"\t", &input].concat();
        }
        _ => {
            let at = random.below(bytes.len() + 1);
            let piece = if random.once_in(3) { strewn::marks(random) } else { templates::piece(random) };
            bytes.splice(at..at, piece);
        }
    }
}
