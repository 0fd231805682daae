//! What is serialized, and what is refused when it is read again.

use serde_json::{from_str, json, to_value};
use sorbilgan::{read, Cause, Moment, Parts, Settings, Template};

#[test]
fn moments_and_parts() {
    let moment = Moment { hour: 21, minute: 5, ..Moment::midnight(2024, 2, 29) };
    let shown = json!({"year": 2024, "month": 2, "day": 29, "hour": 21, "minute": 5, "second": 0, "micros": 0});
    assert_eq!(to_value(moment).unwrap(), shown);
    assert_eq!(from_str::<Moment>(&shown.to_string()).unwrap(), moment);
    assert!(from_str::<Moment>(r#"{"year": 2024}"#).is_err());

    let parts = read("YYYY-MM-DD SS.FF3 TZH", "2024-02-29 05.25 -07").unwrap();
    let shown = to_value(parts).unwrap();
    assert_eq!((&shown["precision"], &shown["offset"]), (&json!(3), &json!(-25_200)));
    assert_eq!(from_str::<Parts>(&shown.to_string()).unwrap(), parts);
}

/// Parts that an older version has serialized have no marks.
#[test]
fn marks_of_parts() {
    let parts = read("MM-DD", "02-29").unwrap();
    let mut shown = to_value(parts).unwrap();
    let marks = ["year_set", "month_set", "day_set"];
    assert_eq!(marks.map(|mark| shown[mark].clone()), [json!(false), json!(true), json!(true)]);
    assert_eq!(from_str::<Parts>(&shown.to_string()).unwrap(), parts);

    for mark in marks {
        shown.as_object_mut().unwrap().remove(mark);
    }
    let older = from_str::<Parts>(&shown.to_string()).unwrap();
    assert_eq!((older.year_set, older.month_set, older.day_set), (false, false, false));
    assert_eq!((older.month, older.day), (2, 29));
}

#[test]
fn templates_as_their_text() {
    let template = Template::compile(r#""ngày "DD"#).unwrap();
    let shown = to_value(&template).unwrap();
    assert_eq!(shown, json!(r#""ngày "DD"#));
    assert_eq!(from_str::<Template>(&shown.to_string()).unwrap(), template);
    let long = json!("-".repeat(257)).to_string();
    assert!(from_str::<Template>(&long).unwrap_err().to_string().starts_with("the template is over 256 bytes"));
}

/// Settings are kept beside a template's text; one that is missing is the default.
#[test]
fn settings() {
    let cards = Settings::new().cards(true);
    assert_eq!(to_value(cards).unwrap(), json!({"cards": true, "strict": false, "accents": false}));
    assert_eq!(from_str::<Settings>(r#"{"cards": true}"#).unwrap(), cards);
    for settings in [cards.strict(true), cards.accents(true), cards.strict(true).accents(true)] {
        assert_eq!(from_str::<Settings>(&to_value(settings).unwrap().to_string()).unwrap(), settings);
    }
    assert_eq!(from_str::<Settings>("{}").unwrap(), Settings::new());

    let template = Template::compile_with("DD", cards).unwrap();
    let shown = to_value(&template).unwrap();
    assert_eq!(shown, json!("DD"));
    assert_eq!(from_str::<Template>(&shown.to_string()).unwrap().settings(), Settings::new());
}

#[test]
fn causes_as_their_numbers() {
    for cause in Cause::ALL {
        assert_eq!(to_value(cause).unwrap(), json!(cause.number()));
        assert_eq!(from_str::<Cause>(&cause.number().to_string()).unwrap(), *cause);
    }
    assert_eq!(from_str::<Cause>("22").unwrap_err().to_string(), "no refusal has the number 22");
    let refusal = read("YYYYMMDD", "20242").unwrap_err();
    assert_eq!(to_value(refusal).unwrap(), json!({"number": 5, "pattern": "MM", "figures": [2, 1]}));
}
