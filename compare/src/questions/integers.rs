//! Questions about reading an integer from a place of a text.

use crate::hex;
use crate::random::{Random, all_bytes};

const TEXTS: [&str; 52] = [
    "",
    "-",
    "+",
    " ",
    "a",
    "0",
    "-0",
    "+0",
    "7",
    "007",
    " 7",
    "\t7",
    "\n7",
    "\u{b}7",
    "\u{c}7",
    "\r7",
    "\u{0}7",
    "\u{1f}7",
    " \t\n\u{b}\u{c}\r-7 ",
    "- 7",
    "--7",
    "+-7",
    "-+7",
    "7-7",
    "12ab",
    "1,234",
    "0x1f",
    "1e9",
    "7.5",
    "/7",
    ":7",
    "７",
    "\u{a0}7",
    "2147483647",
    "2147483648",
    "-2147483648",
    "-2147483649",
    "9223372036854775799",
    "9223372036854775806",
    "9223372036854775807",
    "9223372036854775808",
    "9223372036854775810",
    "-9223372036854775807",
    "-9223372036854775808",
    "-9223372036854775809",
    "-9223372036854775810",
    "00000000000000009223372036854775807",
    "92233720368547758070",
    "-92233720368547758080",
    "18446744073709551615",
    "18446744073709551616",
    "99999999999999999999999999999999999999999999x",
];

fn question(start: usize, text: &[u8]) -> String {
    format!("strtol {start} {}", hex::encode(text))
}

pub fn questions(random: &mut Random) -> Vec<String> {
    let mut list = Vec::new();
    for text in TEXTS.map(str::as_bytes) {
        list.push(question(0, text));
        list.push(question(1, text));
        list.push(question(text.len(), text));
        list.push(question(text.len() + 1, text));
    }
    list.push(question(512, b"7"));
    list.push(question(65_536, b"7"));
    for _ in 0..90 {
        // numbers on both sides of the range's ends
        let near_end = (i64::MAX as u64).wrapping_add(random.below(40) as u64).wrapping_sub(19);
        let sign = random.pick(&["", "+", "-"]);
        let zeros = "0".repeat(random.below(4));
        let rest = random.pick(&["", "", "0", "9", " ", "x"]);
        list.push(question(0, format!("{sign}{zeros}{near_end}{rest}").as_bytes()));
    }
    for (alphabet, most) in [(&b" \t\r+-0123456789,:a"[..], 12), (&all_bytes(), 40), (b"0123456789", 60)] {
        for _ in 0..66 {
            let text = random.bytes(alphabet, most);
            list.push(question(random.below(text.len() + 2), &text));
        }
    }
    list
}
