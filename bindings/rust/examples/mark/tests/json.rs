//! The marks as JSON.

use super::answer;
use crate::json::string;

fn objects(template: &str, input: impl AsRef<[u8]>) -> String {
    answer(&["--json", template], input).output().to_string()
}

#[test]
fn each_mark() {
    let input = "2024-02-29\n2024-2-9\n2024\n10000-01-01\n\n";
    let wanted = r#"{"mark":"ok","line":"2024-02-29","moment":"2024-02-29T00:00:00"}
{"mark":"otherwise","line":"2024-2-9","moment":"2024-02-09T00:00:00","expected":"2024-02-09"}
{"mark":"incomplete","line":"2024","moment":"2024-01-01T00:00:00","written":"2024-01-01"}
{"mark":"accepted","line":"10000-01-01","moment":"+10000-01-01T00:00:00"}
{"mark":"incomplete","line":"","moment":"0000-01-01T00:00:00","written":null}
"#;
    let answer = answer(&["--json", "YYYY-MM-DD"], input);
    assert_eq!((answer.status, answer.output()), (0, wanted));
    assert_eq!(answer.errors, "mark: 5 lines, 1 ok, 1 otherwise, 2 incomplete, 1 accepted\n");
}

#[test]
fn refused() {
    for (line, cause, reason) in [
        ("20230229", r#""number":15,"cause":"FieldOverflow","pattern":null,"figures":[0,0]"#, "no such date or time"),
        (
            "20242",
            r#""number":5,"cause":"Short","pattern":"MM","figures":[2,1]"#,
            "MM takes 2 bytes, and the input has 1 left",
        ),
    ] {
        let answer = answer(&["--json", "YYYYMMDD"], line);
        let wanted = format!("{{\"mark\":\"refused\",{cause},\"reason\":\"{reason}\",\"line\":\"{line}\"}}\n");
        assert_eq!((answer.status, &*answer.errors), (1, "mark: 1 line, 1 refused\n"));
        assert_eq!(answer.output(), wanted);
    }
}

#[test]
fn refused_strictly() {
    for arguments in [["--strict", "--json", "DD.MM"], ["--json", "--strict", "DD.MM"]] {
        let answer = answer(&arguments, "30.02");
        let cause = r#""number":25,"cause":"NoSuchDay","pattern":null,"figures":[0,0]"#;
        let reason = r#""reason":"a day that its month never has","line":"30.02""#;
        assert_eq!(answer.output(), format!("{{\"mark\":\"refused\",{cause},{reason}}}\n"));
    }
}

#[test]
fn moments() {
    for (template, line, moment) in [
        ("HH24:MI:SS.US", "21:05:00.500000", "0000-01-01T21:05:00.500000"),
        ("HH24:MI:SS.US", "21:05:00.000007", "0000-01-01T21:05:00.000007"),
        ("YYYY-MM-DD HH24 TZH", "2024-02-29 21 +07", "2024-02-29T21:00:00+07:00"),
        ("YYYY-MM-DD HH24 TZH:TZM", "2024-02-29 21 -00:30", "2024-02-29T21:00:00-00:30"),
        ("YYYY-MM-DD HH24 TZH", "2024-02-29 21 +00", "2024-02-29T21:00:00+00:00"),
        ("YYYY-MM-DD SS.FF6 TZH:TZM", "2024-02-29 05.25 -05:30", "2024-02-29T00:00:05.250000-05:30"),
        ("YYYY BC", "45 BC", "-0044-01-01T00:00:00"),
    ] {
        let object = objects(template, line);
        assert!(object.ends_with(&format!("\"moment\":\"{moment}\"}}\n")), "{object}");
    }
}

#[test]
fn strings() {
    assert_eq!(string(r#"say "a\b""#), r#""say \"a\\b\"""#);
    assert_eq!(string("năm 日 🗓 /"), "\"năm 日 🗓 /\"");
    for code in (0..0x20).chain(0x7f..0xa0).chain([0x2028, 0x2029]) {
        assert_eq!(string(&char::from_u32(code).unwrap().to_string()), format!("\"\\u{code:04x}\""));
    }
    assert_eq!(string("\u{a0}~"), "\"\u{a0}~\"");
}

#[test]
fn a_line_of_any_bytes() {
    let object = objects("DD", b"5\t\"\\\x00\xff\xc3");
    assert!(object.ends_with(",\"line\":\"5\\u0009\\\"\\\\\\u0000\u{fffd}\u{fffd}\"}\n"), "{object}");
    // the expected text is escaped too
    let object = objects("DD\"\\\"\t\"", "5--");
    assert!(object.ends_with(",\"expected\":\"05\\\"\\u0009\"}\n"), "{object}");
}
