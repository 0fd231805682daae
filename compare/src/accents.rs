//! Characters as change request 4 counts them: a letter with all marks right after it is one.

/// U+0300 to U+036F.
pub fn is_mark(character: char) -> bool {
    ('\u{300}'..='\u{36f}').contains(&character)
}

/// An ASCII letter, or a character outside ASCII that is no mark.
fn is_letter(character: char) -> bool {
    if character.is_ascii() { character.is_ascii_alphabetic() } else { !is_mark(character) }
}

/// The bytes of the character at a place of a text, which may end inside a UTF-8 sequence. The copy of the ported
/// module that build.rs makes measures by this.
pub fn length(text: &[u8], at: usize) -> usize {
    let rest = &text[at..];
    let whole = rest.utf8_chunks().next().map_or("", |chunk| chunk.valid());
    let mut characters = whole.chars();
    let Some(first) = characters.next() else { return rest.len() };
    let marks = characters.take_while(|next| is_letter(first) && is_mark(*next));
    first.len_utf8() + marks.map(char::len_utf8).sum::<usize>()
}
