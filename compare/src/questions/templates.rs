//! Questions about the nodes of a template.

use crate::formatting_gen::{DCH_KEYWORDS, DCH_SUFFIXES};
use crate::hex;
use crate::random::{Random, all_bytes};

const LIMIT: usize = 256;

/// Words of Vietnamese dates, letters and marks joined and apart.
pub const WORDS: [&str; 14] = [
    "ngày", "nga\u{300}y", "tháng", "tha\u{301}ng", "năm", "na\u{306}m", "thứ", "thư\u{301}", "thu\u{31b}\u{301}",
    "thu\u{301}\u{31b}", "giờ", "giơ\u{300}", "phút", "giây",
];

const CURIOUS: [&str; 60] = [
    "", "\"", "\"\"", "\"\"\"", "\"a", "\"a\"", "\"a\"\"b\"", "\"YYYY\"", "\"YYYY", "\"a b-c\"", "\"a\\\"b\"",
    "\"a\\\\\"", "\"a\\b\"", "\"\\", "\"a\\", "\"\\à\"", "\\", "\\\\", "\\\"", "\\\\\"", "\\a", "\\YYYY", "\\\"YYYY",
    "YYYY\\", "YYYY\"", "YYYY\"-", "FM", "fm", "TM", "tm", "FMFM", "FMTM", "TMFM", "FMFMDD", "FMTMDD", "tmfmDD",
    "YYYYFM", "YYYYFMFM", "FM-DD", "FM DD", "FM\"\"DD", "FM\"x\"DD", "FM\\\"DD", "FMxDD", "FMà", "fM", "Fm", "TH",
    "th", "SP", "Th", "DDTHTH", "DDTHth", "DDthSP", "DDSPTH", "DDTh", "DDT", "DD\"\"TH", "DDTHFMMM", "MONTHTH",
];

fn affix(random: &mut Random, prefix: bool) -> &'static str {
    let names = DCH_SUFFIXES.iter().filter(|affix| affix.prefix == prefix);
    let names: Vec<&str> = names.map(|affix| affix.name).collect();
    random.pick(&names)
}

pub fn pattern(random: &mut Random) -> &'static str {
    DCH_KEYWORDS[random.below(DCH_KEYWORDS.len())].name
}

/// One letter in the other case.
fn other_case(random: &mut Random, name: &str) -> String {
    let mut bytes = name.as_bytes().to_vec();
    let at = random.below(bytes.len());
    bytes[at] ^= if bytes[at].is_ascii_alphabetic() { 0x20 } else { 0 };
    String::from_utf8(bytes).unwrap()
}

/// What templates are made of, and what they may hold by mistake.
pub fn piece(random: &mut Random) -> Vec<u8> {
    let text = match random.below(17) {
        0..=5 => pattern(random).to_string(),
        6 | 7 => affix(random, true).to_string() + pattern(random),
        8 => pattern(random).to_string() + affix(random, false),
        9 => affix(random, true).to_string(),
        10 => affix(random, false).to_string(),
        11 => random.pick(&["-", "/", ":", ".", ",", "~", "!", "[", "{"]).to_string(),
        12 => random.pick(&[" ", "  ", "\t", "\n", "\u{b}", "\u{c}", "\r"]).to_string(),
        13 => random.pick(&["\"", "\"\"", "\\", "\\\"", "\\\\", "T", "x", "é", "€", "𝄞", "0", "9"]).to_string(),
        14 => random.pick(&WORDS).to_string(),
        15 => format!("\"{}\"", random.pick(&WORDS)),
        _ => return random.bytes(&all_bytes(), 3),
    };
    text.into_bytes()
}

pub fn questions(random: &mut Random) -> Vec<String> {
    let mut list: Vec<Vec<u8>> = CURIOUS.iter().map(|text| text.as_bytes().to_vec()).collect();
    list.extend(all_bytes().into_iter().map(|byte| vec![byte]));
    for name in DCH_KEYWORDS.iter().map(|key| key.name) {
        list.push(name.into());
        list.push([affix(random, true), name].concat().into());
        list.push([name, affix(random, false)].concat().into());
        list.push([affix(random, true), name, affix(random, false), name].concat().into());
        list.push(other_case(random, name).into());
        list.push([&name[..name.len() - 1], pattern(random)].concat().into());
    }
    list.extend(WORDS.iter().map(|word| format!("\"{word}\"DD{word}").into()));
    for _ in 0..520 {
        let pieces: Vec<_> = (0..=random.below(10)).map(|_| piece(random)).collect();
        list.push(pieces.concat());
    }
    for _ in 0..24 {
        list.push(random.bytes(&all_bytes(), LIMIT));
    }
    for _ in 0..24 {
        // to the limit, the last character perhaps cut in two
        let pieces: Vec<_> = (0..LIMIT).map(|_| piece(random)).collect();
        list.push(pieces.concat());
    }
    for template in &mut list {
        template.truncate(LIMIT);
    }
    list.iter().map(|template| format!("parse {}", hex::encode(template))).collect()
}
