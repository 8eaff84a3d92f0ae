//! Width folding: passes over characters without branches, so that many are taken
//! at once.

/// Copies characters, each full-width form replaced.
pub fn copy_replaced(characters: &[u16], copy: &mut [u16]) {
    for (slot, &character) in copy.iter_mut().zip(characters) {
        *slot = match is_full_width(character) {
            true => character - 0xFEE0,
            false => character,
        };
    }
}

/// Whether one of the characters is a full-width form. Few characters lie above
/// FF00, and it takes less to see that none does.
pub fn holds_full_width(characters: &[u16]) -> bool {
    let excess = |all, &character: &u16| all | character.saturating_sub(0xFF00);
    characters.iter().fold(0, excess) != 0
        && characters.iter().any(|&character| is_full_width(character))
}

fn is_full_width(character: u16) -> bool {
    (0xFF01..=0xFF5E).contains(&character)
}
