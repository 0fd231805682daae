//! What reading stores before a date is made of it: the fields from which a year, a day or a fraction is summed.

use super::*;

/// `mode cc year yysz bc ww w ms` of a line "template TAB input", as far as reading came.
pub fn fields(line: &[u8]) -> String {
    let (template, input) = reading::cut(line);
    let mut read = TmFromChar::default();
    // a refusal says no more than the parts answer does
    let _ = dch_from_char(&parse(template), input, &mut read);
    let TmFromChar { mode, cc, year, yysz, bc, ww, w, ms, .. } = read;
    format!("{mode} {cc} {year} {yysz} {bc} {ww} {w} {ms}")
}
