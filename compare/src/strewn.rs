//! Texts with marks anywhere, and with characters that are nearly marks.

use crate::random::Random;

/// Marks, with the first, the last and both sides of where their second byte begins anew; the characters before and
/// after them; other combining marks.
const MARKS: [&str; 12] = [
    "\u{300}", "\u{301}", "\u{302}", "\u{31b}", "\u{323}", "\u{33f}", "\u{340}", "\u{36f}", "\u{2ff}", "\u{370}",
    "\u{483}", "\u{20d0}",
];
/// What a mark is put to: letters and what is none. A text may have them anywhere, in its literals at least.
const BEFORE: [&str; 12] = ["", "", "", "", "a", "x", "ư", "年", "😀", "\u{a0}", "7", "-"];

/// One of them, and mostly one to three of a kind; seldom as many as a text can have.
pub fn marks(random: &mut Random) -> Vec<u8> {
    let count = if random.once_in(100) { random.below(260) } else { 1 + random.below(3) };
    (random.pick(&BEFORE).to_string() + &random.pick(&MARKS).repeat(count)).into_bytes()
}

/// A text with marks at some places between its characters, and now and then inside one.
pub fn text(random: &mut Random, text: &[u8]) -> Vec<u8> {
    let mut text = text.to_vec();
    for _ in 0..random.below(4) {
        let at = random.below(text.len() + 1);
        let within = text.get(at).is_some_and(|byte| byte & 0xc0 == 0x80);
        if !within || random.once_in(20) {
            text.splice(at..at, marks(random));
        }
    }
    text
}
