//! Known answers: they show that the stand-ins serve and that errors are told apart.

use crate::accented::answers as accented;
use crate::formatting::answers::{
    answer, back, cut, date, instant, line, parts, patterns, records, without_return, written,
};
use crate::random::Random;
use crate::{hex, known, moments};
use std::collections::{HashMap, HashSet};

fn shown(text: &[u8]) -> String {
    String::from_utf8_lossy(text).to_string()
}

#[test]
fn known_parts() {
    for (text, expected) in known::lines() {
        assert_eq!(line(&text, parts), expected, "{}", shown(&text));
    }
}

/// The strict switch makes 25 of these and leaves the others as they are, whatever is asked for.
#[test]
fn known_refusals_when_strict() {
    let begins = |text: &[u8], record: &[i64]| assert_eq!(record[..4], [25, 112, 0, 0], "{}", shown(text));
    for (text, _, refused) in known::marks::lines() {
        let (template, input) = cut(&text);
        let (parts, instant, date) =
            (records::parts(template, input), records::instant(template, input), records::date(template, input));
        if refused {
            begins(&text, &parts.on);
            begins(&text, &instant.on);
            begins(&text, &date.on);
        } else {
            assert_eq!((parts.on, instant.on, date.on), (parts.off, instant.off, date.off), "{}", shown(&text));
        }
    }
}

/// Both character modes: the module as it is, and the copy that counts a letter with its accents as one.
#[test]
fn known_parts_in_both_modes() {
    for (text, old, new) in known::accents::lines() {
        let found = [line(&text, parts), accented::line(&text, accented::parts)];
        assert_eq!(found, [old, new], "{}", shown(&text));
    }
}

#[test]
fn known_lone_marks() {
    for (template, lone) in known::accents::TEMPLATES {
        assert_eq!(accented::has_lone_mark(template.as_bytes()), *lone, "{template}");
    }
}

#[test]
fn known_instants_and_days() {
    for (text, of_instant, of_day) in known::readings::lines() {
        assert_eq!(line(&text, instant), of_instant, "{}", shown(&text));
        assert_eq!(line(&text, date), of_day, "{}", shown(&text));
    }
}

#[test]
fn known_texts() {
    for (text, expected) in known::moments::lines() {
        assert_eq!(line(&text, written), expected, "{}", shown(&text));
    }
}

/// What is written by a full template is read back, by the module itself.
#[test]
fn read_back() {
    let mut random = Random::new(1);
    let mut count = 0;
    for asked in (0..20_000).map(|_| moments::arriving(&mut random)) {
        let wanted = back(&asked);
        let [days, micros, moment] = wanted.rsplitn(3, ' ').collect::<Vec<_>>()[..] else { continue };
        let text = line(without_return(&asked), written);
        let (template, _) = cut(&asked);
        let text = text[2..].as_bytes();
        assert_eq!(parts(template, text), format!("0 {moment} 0 none 7"), "{}", shown(&asked));
        assert_eq!(instant(template, text), format!("0 {micros}"), "{}", shown(&asked));
        assert_eq!(date(template, text), format!("0 {days}"), "{}", shown(&asked));
        count += 1;
    }
    assert!(count > 13_000, "{count}");
}

/// Every refusal of a line has at least five causes.
#[test]
fn causes() {
    for number in 1..=16 {
        let refused = |(_, answer): &(_, &str)| answer.starts_with(&format!("{number} "));
        assert!(known::lines().iter().filter(|known| refused(known)).count() >= 5, "{number}");
    }
}

/// The full templates of the stored list have every group of patterns, and in each group every pattern before every
/// other.
#[test]
fn orders() {
    let mut random = Random::new(1970);
    let mut groups: HashMap<Vec<String>, HashSet<[String; 2]>> = HashMap::new();
    for asked in (0..3000).map(|_| moments::line(&mut random)).filter(|asked| back(asked) != "-") {
        let order = patterns(cut(&asked).0);
        let mut group = order.clone();
        group.sort();
        let pairs = order
            .iter()
            .enumerate()
            .flat_map(|(at, first)| order[at + 1..].iter().map(move |second| [first.clone(), second.clone()]));
        groups.entry(group).or_default().extend(pairs);
    }
    assert_eq!(groups.len(), 15);
    for (group, pairs) in groups {
        assert_eq!(pairs.len(), group.len() * (group.len() - 1), "{group:?}");
    }
}

#[test]
fn nodes() {
    let template = hex::encode("FM\"\"FMDDth\"ày\"-fm YYYYtm".as_bytes());
    assert_eq!(
        answer(&format!("parse {template}")),
        "1:6:2:9:5 2:11:2:0:0 2:13:1:0:0 3:15:1:0:0 4:18:1:0:0 1:19:4:54:0"
    );
}

#[test]
fn to_char() {
    let template = hex::encode(b"YYYY-MM-DD HH24:MI:SS.US Day IW");
    let text = hex::decode(&answer(&format!("to_char 1709219045000006 {template}")));
    assert_eq!(std::str::from_utf8(&text), Ok("2024-02-29 15:04:05.000006 Thursday  09"));
}
