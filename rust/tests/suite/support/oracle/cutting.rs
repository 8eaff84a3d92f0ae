//! The cut-down index for one string.

use super::Opened;

/// The same n, and the keys that bear on the replaced string with all their
/// positions.
pub fn cut_down(opened: &Opened, string: &[u16]) -> Vec<u16> {
    let string = super::replaced(string);
    let mut lines = opened.lines.clone();
    lines.retain(|(key, _)| bears(&key.spells(&opened.words), &string));
    super::numbers(opened.n, &lines)
}

/// Whether what a key spells contains the string, is contained in it, ends in a
/// nonempty start of it, or starts with a nonempty end of it.
fn bears(spelt: &[u16], string: &[u16]) -> bool {
    contains(spelt, string)
        || contains(string, spelt)
        || ends_in_a_start(spelt, string)
        || ends_in_a_start(string, spelt)
}

fn contains(long: &[u16], short: &[u16]) -> bool {
    long.windows(short.len()).any(|window| window == short)
}

fn ends_in_a_start(first: &[u16], second: &[u16]) -> bool {
    (1..=second.len()).any(|length| first.ends_with(&second[..length]))
}
