//! Every Vietnamese letter in every spelling of one, two or three characters. A keyboard sends ứ as one character, or
//! as ư, ú or u with the rest as accent marks after it, two of them in either order. Template and line are spelled each
//! on its own, and README.md's table has how many of the lines are marked wrong where each character counts.

mod tables;

use sorbilgan::{Moment, Parts, Refusal, Settings, Template};
use std::collections::HashSet;

/// Vowels that are plain letters, each without a tone and then with the five tones.
const PLAIN: [&str; 12] = [
    "aàáãảạ", "eèéẽẻẹ", "iìíĩỉị", "oòóõỏọ", "uùúũủụ", "yỳýỹỷỵ", "AÀÁÃẢẠ", "EÈÉẼẺẸ", "IÌÍĨỈỊ", "OÒÓÕỎỌ", "UÙÚŨỦỤ",
    "YỲÝỸỶỴ",
];

/// Vowels with a mark for their shape, also without a tone and with the five; the mark, and the plain letter.
const SHAPED: [(&str, char, char); 12] = [
    ("ăằắẵẳặ", BREVE, 'a'),
    ("âầấẫẩậ", CIRCUMFLEX, 'a'),
    ("êềếễểệ", CIRCUMFLEX, 'e'),
    ("ôồốỗổộ", CIRCUMFLEX, 'o'),
    ("ơờớỡởợ", HORN, 'o'),
    ("ưừứữửự", HORN, 'u'),
    ("ĂẰẮẴẲẶ", BREVE, 'A'),
    ("ÂẦẤẪẨẬ", CIRCUMFLEX, 'A'),
    ("ÊỀẾỄỂỆ", CIRCUMFLEX, 'E'),
    ("ÔỒỐỖỔỘ", CIRCUMFLEX, 'O'),
    ("ƠỜỚỠỞỢ", HORN, 'O'),
    ("ƯỪỨỮỬỰ", HORN, 'U'),
];

const BREVE: char = '\u{306}';
const CIRCUMFLEX: char = '\u{302}';
const HORN: char = '\u{31b}';

/// The marks of the five tones: grave, acute, tilde, hook above, dot below.
const TONES: [char; 5] = ['\u{300}', '\u{301}', '\u{303}', '\u{309}', '\u{323}'];

/// The spellings of a letter; that of one character comes first.
type Spellings = Vec<String>;

fn characters(row: &str) -> Vec<char> {
    row.chars().collect()
}

fn plain(row: &str) -> Vec<Spellings> {
    let row = characters(row);
    let toned = row[1..].iter().zip(TONES);
    let toned = toned.map(|(composed, tone)| vec![composed.to_string(), String::from_iter([row[0], tone])]);
    [vec![row[0].to_string()]].into_iter().chain(toned).collect()
}

fn shaped((row, shape, base): (&str, char, char)) -> Vec<Spellings> {
    let row = characters(row);
    let bases = characters(PLAIN.iter().find(|plain| plain.starts_with(base)).unwrap());
    let toned = (1..).zip(TONES).map(|(at, tone)| {
        let marks = [[row[0], tone], [bases[at], shape]].map(String::from_iter);
        let stacked = [[base, shape, tone], [base, tone, shape]].map(String::from_iter);
        [vec![row[at].to_string()], marks.into(), stacked.into()].concat()
    });
    [vec![row[0].to_string(), String::from_iter([base, shape])]].into_iter().chain(toned).collect()
}

/// All letters with their spellings. đ has no mark, and one spelling.
fn letters() -> Vec<Spellings> {
    let vowels = PLAIN.into_iter().flat_map(plain).chain(SHAPED.into_iter().flat_map(shaped));
    vowels.chain(["đ", "Đ"].map(|letter| vec![letter.to_string()])).collect()
}

#[test]
fn all_letters() {
    let letters = letters();
    assert_eq!(letters.len(), 2 * (12 * 6 + 1));
    let spellings = letters.concat();
    assert_eq!(HashSet::<&String>::from_iter(&spellings).len(), spellings.len());
    let of_length = |length| spellings.iter().filter(|spelling| spelling.chars().count() == length).count();
    assert_eq!([1, 2, 3].map(of_length), [146, 192, 120]);
    assert_eq!(spellings.len(), 458);

    let wanted = ["ứ", "ư\u{301}", "ú\u{31b}", "u\u{31b}\u{301}", "u\u{301}\u{31b}"];
    assert_eq!(letters.iter().find(|spellings| spellings[0] == "ứ").unwrap()[..], wanted);
}

fn read(template: &str, line: &str, settings: Settings) -> Result<Parts, Refusal> {
    Template::compile_with(template, settings).unwrap().read(line)
}

/// Outside quotes i and y are patterns, also with a mark after them.
fn is_literal(template: &str, spelling: &str) -> bool {
    template.contains('"') || !spelling.starts_with(['i', 'I', 'y', 'Y'])
}

/// How many pairs of spellings there are for the places of ứ in template and line, how many of the lines are refused
/// where each character counts, and how many are read as another date. None of these has as many characters in the line
/// as in the template. With accents every line is read as the date.
fn counted(template: &str, line: &str) -> [usize; 3] {
    let wanted = Parts::from(Moment::midnight(2024, 2, 29));
    let accents = Settings::new().accents(true);
    let [mut pairs, mut refused, mut otherwise] = [0; 3];
    for spellings in letters() {
        let in_templates = spellings.iter().filter(|spelling| is_literal(template, spelling));
        for (ours, theirs) in in_templates.flat_map(|ours| spellings.iter().map(move |theirs| (ours, theirs))) {
            let (template, line) = (template.replace('ứ', ours), line.replace('ứ', theirs));
            for settings in [accents, accents.cards(true).strict(true)] {
                assert_eq!(read(&template, &line, settings), Ok(wanted), "{template}: {line}");
            }
            let answer = read(&template, &line, Settings::new());
            assert!(answer == Ok(wanted) || ours.chars().count() != theirs.chars().count(), "{template}: {line}");
            pairs += 1;
            refused += usize::from(answer.is_err());
            otherwise += usize::from(answer.is_ok_and(|parts| parts != wanted));
        }
    }
    [pairs, refused, otherwise]
}

/// A number as README.md has it.
fn grouped(number: usize) -> String {
    if number < 1000 {
        return number.to_string();
    }
    format!("{},{:03}", grouped(number / 1000), number % 1000)
}

#[test]
fn every_pair_of_spellings() {
    let rows = tables::rows("Letters with accents");
    assert_eq!(rows.len(), 6);
    let (mut pairs, mut wrong) = (0, 0);
    for row in rows {
        let counts = counted(row[0], row[1]);
        assert_eq!(counts.map(grouped), row[2..], "{row:?}");
        pairs += counts[0];
        wrong += counts[1] + counts[2];
    }
    let sums =
        format!("of {} lines {} are marked wrong without the setting, and none with", grouped(pairs), grouped(wrong));
    assert!(tables::README.replace('\n', " ").contains(&sums), "{sums}");
}
