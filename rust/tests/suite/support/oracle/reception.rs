//! Reception of an index, and recovery of its text.

use super::Opened;
use crate::support::dictionary::Dictionary;

/// Reception: the replaced text that has the index, or the number of the
/// refusal, for a work slice of this length.
pub fn receive(dictionary: &Dictionary, numbers: &[u16], work_len: usize) -> Result<Vec<u16>, u32> {
    let opened = super::open(&dictionary.chars, &dictionary.lengths, numbers)?;
    if work_len < 8 * usize::from(opened.n) {
        return Err(7);
    }
    text_of(&opened).ok_or(9)
}

/// The replaced text that has this index, if one does. Where a text has it, every
/// entry stands in the text and every position is covered: so it is the text that
/// the entries show.
fn text_of(opened: &Opened) -> Option<Vec<u16>> {
    let mut shown = vec![None; usize::from(opened.n)];
    for (start, spelt) in opened.entries() {
        for (slot, character) in shown[start - 1..].iter_mut().zip(spelt) {
            if slot.is_some_and(|other| other != character) {
                return None;
            }
            *slot = Some(character);
        }
    }
    let text: Vec<u16> = shown.into_iter().collect::<Option<_>>()?;
    let is_replaced = !text.iter().copied().any(super::is_full_width);
    let numbers = super::numbers(opened.n, &opened.lines);
    let has_it = super::index_of(&opened.words, &text) == numbers;
    (is_replaced && has_it).then_some(text)
}
