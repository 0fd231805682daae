//! Questions about a character's length, and whether bytes are UTF-8.

use super::templates::WORDS;
use crate::hex;
use crate::random::{Random, all_bytes};

/// First bytes at which the length or the rule of UTF-8 turns.
const FIRST: [u8; 24] = [
    0x00, 0x41, 0x7f, 0x80, 0xbf, 0xc0, 0xc1, 0xc2, 0xc3, 0xdf, 0xe0, 0xe1, 0xec, 0xed, 0xee, 0xef, 0xf0, 0xf1, 0xf3,
    0xf4, 0xf5, 0xf7, 0xf8, 0xff,
];

/// Second bytes at which an overlong form, a surrogate or the last code point turns.
const SECOND: [u8; 9] = [0x7f, 0x80, 0x8f, 0x90, 0x9f, 0xa0, 0xbf, 0xc0, 0xff];

fn lengths(random: &mut Random) -> Vec<String> {
    let mut list = Vec::new();
    for first in FIRST {
        for rest in 0..4 {
            let text = [&[first][..], &[0x80; 3][..rest]].concat();
            list.push(format!("mblen 0 {}", hex::encode(&text)));
        }
    }
    for _ in 0..30 {
        let mut text = random.bytes(&all_bytes(), 12);
        text.push(random.pick(&FIRST));
        list.push(format!("mblen {} {}", random.below(text.len()), hex::encode(&text)));
    }
    list
}

fn validity(random: &mut Random) -> Vec<String> {
    let mut texts: Vec<Vec<u8>> = vec![Vec::new()];
    for first in FIRST.into_iter().filter(|first| *first >= 0xc0) {
        texts.push(vec![first]);
        texts.push(vec![first, random.pick(&SECOND)]);
    }
    for first in [0xe0, 0xed, 0xef, 0xf0, 0xf4] {
        for second in SECOND {
            texts.push(vec![first, second, 0x80]);
            texts.push(vec![first, second, 0xbf, 0xbf]);
        }
    }
    for _ in 0..60 {
        // a text in which at most one byte was changed or left out
        let mut text = [random.pick(&WORDS), " ", random.pick(&WORDS), "𝄞"].concat().into_bytes();
        let at = random.below(text.len());
        match random.below(3) {
            0 => text[at] = random.next() as u8,
            1 => drop(text.remove(at)),
            _ => (),
        }
        texts.push(text);
    }
    texts.iter().map(|text| format!("utf8 {}", hex::encode(text))).collect()
}

pub fn questions(random: &mut Random) -> Vec<String> {
    [lengths(random), validity(random)].concat()
}
