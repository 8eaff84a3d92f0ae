//! Full-width forms, and texts and strings with each of them replaced.

/// Whether this is a character from FF01 to FF5E.
pub fn is_full_width(character: u16) -> bool {
    (0xFF01..=0xFF5E).contains(&character)
}

/// The text or string with each full-width form replaced by the character FEE0
/// lower.
pub fn replaced(text: &[u16]) -> Vec<u16> {
    let replace = |&character: &u16| match is_full_width(character) {
        true => character - 0xFEE0,
        false => character,
    };
    text.iter().map(replace).collect()
}
