//! Search of an index by the definition, and search of a text.

use super::Opened;
use crate::support::dictionary::Dictionary;

/// Search or the cut-down index: the result, or the number of the refusal, for
/// an output of this length.
pub fn answer(
    dictionary: &Dictionary,
    numbers: &[u16],
    string: &[u16],
    output_len: usize,
    result: fn(&Opened, &[u16]) -> Vec<u16>,
) -> Result<Vec<u16>, u32> {
    let opened = open_for(dictionary, numbers, string)?;
    super::put(result(&opened, string), output_len)
}

/// The first position found, if there is one, or the number of the refusal.
pub fn first(dictionary: &Dictionary, numbers: &[u16], string: &[u16]) -> Result<Option<u16>, u32> {
    let opened = open_for(dictionary, numbers, string)?;
    Ok(found(&opened, string).next())
}

/// The index to be searched for this string, or the number of the refusal.
fn open_for(dictionary: &Dictionary, numbers: &[u16], string: &[u16]) -> Result<Opened, u32> {
    let opened = super::open(&dictionary.chars, &dictionary.lengths, numbers)?;
    match string.len() {
        1..=256 => Ok(opened),
        _ => Err(6),
    }
}

/// The positions at which each character of the replaced string laid there is
/// covered by an entry that agrees.
pub fn find(opened: &Opened, string: &[u16]) -> Vec<u16> {
    found(opened, string).collect()
}

/// The same, one by one.
fn found(opened: &Opened, string: &[u16]) -> impl Iterator<Item = u16> {
    let string = super::replaced(string);
    let mut entries = opened.entries();
    entries.sort();
    let last = (usize::from(opened.n) + 1).saturating_sub(string.len());
    let is_found = move |&laid: &usize| is_found(laid, &string, &entries);
    (1..=last).filter(is_found).map(|laid| laid as u16)
}

/// Whether a string laid at this position is found. The entries are sorted.
fn is_found(laid: usize, string: &[u16], entries: &[(usize, Vec<u16>)]) -> bool {
    let mut covered = vec![false; string.len()];
    // An entry that starts 32 or more before the string ends before it.
    let near = entries.partition_point(|(start, _)| start + 32 <= laid);
    for (start, entry) in &entries[near..] {
        if *start >= laid + string.len() {
            break;
        }
        let shared = laid.max(*start)..(laid + string.len()).min(start + entry.len());
        let equal = |i| string[i - laid] == entry[i - start];
        if !shared.is_empty() && shared.clone().all(equal) {
            covered[shared.start - laid..shared.end - laid].fill(true);
        }
    }
    covered.iter().all(|&i| i)
}

/// The positions at which a string stands in a text, both replaced.
pub fn positions_in_text(text: &[u16], string: &[u16]) -> Vec<u16> {
    let (text, string) = (super::replaced(text), super::replaced(string));
    let windows = text.windows(string.len()).zip(1..=u16::MAX);
    windows
        .filter(|(window, _)| *window == string)
        .map(|(_, position)| position)
        .collect()
}
