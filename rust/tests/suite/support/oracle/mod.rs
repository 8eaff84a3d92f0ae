//! The definitions read as plainly as they are written, with little regard to
//! cost. Texts and strings are taken as they are lent, and replaced here.

mod cutting;
mod gaps;
mod index;
mod reading;
mod reception;
mod replaced;
mod searching;

pub use cutting::cut_down;
pub use gaps::{from_gaps, gap_form, restored, to_gaps};
pub use index::{Key, Line, build, index_of, lines_of, numbers};
pub use reading::{Opened, open, tally};
pub use reception::receive;
pub use replaced::{is_full_width, replaced};
pub use searching::{answer, find, first, positions_in_text};

/// Admission: the number of words, or the number of the refusal.
pub fn admit(chars: &[u16], lengths: &[u16]) -> Result<usize, u32> {
    if lengths.len() > 4096 || chars.len() > 65535 {
        return Err(1);
    }
    let sum: u64 = lengths.iter().map(|&length| u64::from(length)).sum();
    let all_allowed = lengths.iter().all(|length| (1..=32).contains(length));
    if !all_allowed || sum != chars.len() as u64 {
        return Err(2);
    }
    let words = split(chars, lengths);
    if words.windows(2).any(|pair| pair[0] >= pair[1]) {
        return Err(3);
    }
    if words.concat().into_iter().any(is_full_width) {
        return Err(12);
    }
    Ok(words.len())
}

/// The result, or the number of the refusal where the output is shorter.
pub fn put(result: Vec<u16>, output_len: usize) -> Result<Vec<u16>, u32> {
    if output_len < result.len() {
        return Err(8);
    }
    Ok(result)
}

/// The words of a dictionary whose lengths add up.
pub fn split(chars: &[u16], lengths: &[u16]) -> Vec<Vec<u16>> {
    let mut rest = chars;
    let mut words = Vec::new();
    for &length in lengths {
        let (word, after) = rest.split_at(usize::from(length));
        words.push(word.to_vec());
        rest = after;
    }
    words
}
