//! Writes the declarations by which the ported module's files are built where they stand. `SOURCES` names their folder.
//! Two lines are added to formatting.rs, and nothing else is changed. Of what this gives there is also a copy that
//! measures characters otherwise.

use std::path::PathBuf;
use std::{env, fs};

/// The end of the module's check of the date, and the beginning of its check of the time.
const DATE_CHECKED: &str = "        if bad {\n            return Err(overflow());\n        }\n    }\n";
const TIME_CHECKED: &str = "    if tm.hour < 0\n";
/// Between them: which of year, month and day are set, the month and the day.
const NOTE: &str = "    answers::note(fmask, tm.mon, tm.mday);\n";

/// The module with the note in its place.
fn noting(formatting: &str) -> String {
    let place = [DATE_CHECKED, TIME_CHECKED].concat();
    let found = formatting.matches(&place).count();
    assert!(found == 1, "formatting.rs goes from the date's check to the time's in {found} places, and not in one");
    formatting.replace(&place, &[DATE_CHECKED, NOTE, TIME_CHECKED].concat())
}

/// The beginning and the end of the function that measures a character.
const MEASURE: &str = "pub(crate) fn pg_mblen(s: &[u8], i: usize) -> usize {\n";
const END: &str = "\n}\n";

/// The module where a character is measured as change request 4 says.
fn accented(formatting: &str) -> String {
    let parts: Vec<&str> = formatting.split(MEASURE).collect();
    let [before, after] = parts[..] else { panic!("formatting.rs does not measure a character in one place") };
    let (_, after) = after.split_once(END).expect("the function that measures a character ends");
    [before, MEASURE, "    crate::accents::length(s, i)", END, after].concat()
}

fn main() {
    println!("cargo:rerun-if-env-changed=SOURCES");
    let folder = env::var("SOURCES").expect("SOURCES names the folder of the ported module");
    let folder = fs::canonicalize(folder).expect("the folder of the ported module can be read");
    let source = |name: &str| {
        let path = folder.join(format!("src--impl--rust--src--{name}.rs.txt"));
        println!("cargo:rerun-if-changed={}", path.display());
        path
    };
    let read = |path: PathBuf| fs::read_to_string(&path).unwrap_or_else(|e| panic!("{}: {e}", path.display()));
    let out = PathBuf::from(env::var("OUT_DIR").unwrap());
    let here = PathBuf::from(env::var("CARGO_MANIFEST_DIR").unwrap());

    // The functions of formatting.rs are private, but in reach of a module inside it: a line after its text declares that module.
    let declared = format!("#[path = {:?}]\npub mod answers;\n", here.join("src/answers/mod.rs"));
    let text = noting(&read(source("formatting"))) + "\n" + &declared;
    let written = |name: &str, text: &str| {
        let path = out.join(name);
        fs::write(&path, text).unwrap();
        path
    };

    // Of date.rs only its constants: the rest leans on a parser that is not there.
    let date = read(source("date"));
    let constants: String = date.lines().filter(|line| line.starts_with("pub const ")).collect();

    let module = |name: &str, path: PathBuf| format!("#[allow(dead_code)]\n#[path = {path:?}]\nmod {name};\n");
    let declarations = [
        module("costs", source("costs")),
        module("error", source("error")),
        module("formatting", written("formatting.rs", &text)),
        // not all of its answers are asked for
        "#[allow(unused_imports)]\n".to_string() + &module("accented", written("accented.rs", &accented(&text))),
        format!("mod date {{ {constants} }}\n"),
    ];
    fs::write(out.join("modules.rs"), declarations.concat()).unwrap();
}
