//! Positions as gaps, and what any numbers are restored to.

use mopekihua::HEADER;

use super::{Line, Opened};
use crate::support::dictionary::Dictionary;

/// The gap form of an index, or the number of the refusal, for an output of this
/// length.
pub fn to_gaps(
    dictionary: &Dictionary,
    numbers: &[u16],
    output_len: usize,
) -> Result<Vec<u16>, u32> {
    let opened = super::open(&dictionary.chars, &dictionary.lengths, numbers)?;
    super::put(gap_form(&opened), output_len)
}

/// The index restored from a gap form, or the number of the refusal, for an
/// output of this length. A sum above 65,535 is past every n, so it is in no
/// readable index.
pub fn from_gaps(
    dictionary: &Dictionary,
    gaps: &[u16],
    output_len: usize,
) -> Result<Vec<u16>, u32> {
    let Dictionary { chars, lengths } = dictionary;
    super::admit(chars, lengths)?;
    let mut numbers = Vec::new();
    for number in restored(gaps) {
        numbers.push(u16::try_from(number).map_err(|_| 5u32)?);
    }
    super::open(chars, lengths, &numbers)?;
    super::put(numbers, output_len)
}

/// The same n and keys; under each key the first position, and the distance of
/// each later one from the one before.
pub fn gap_form(opened: &Opened) -> Vec<u16> {
    let mut lines: Vec<Line> = Vec::new();
    for (key, positions) in &opened.lines {
        let mut gaps = vec![positions[0]];
        gaps.extend(positions.windows(2).map(|pair| pair[1] - pair[0]));
        lines.push((*key, gaps));
    }
    super::numbers(opened.n, &lines)
}

/// The restored form of any numbers: header and directory stay; of the numbers
/// behind them, as many as the first line counts become the sums of the list up
/// to each, then as many as the next line counts, and so on. What is left stays.
pub fn restored(numbers: &[u16]) -> Vec<u64> {
    let keys = numbers.get(1).copied().map_or(0, usize::from);
    let at = numbers.len().min(HEADER + 3 * keys);
    let (front, mut rest) = numbers.split_at(at);
    let mut restored: Vec<u64> = front.iter().copied().map(u64::from).collect();
    for line in front.get(2..).unwrap_or_default().chunks_exact(3) {
        let count = rest.len().min(usize::from(line[2]));
        let (list, after) = rest.split_at(count);
        let mut sum = 0;
        for &gap in list {
            sum += u64::from(gap);
            restored.push(sum);
        }
        rest = after;
    }
    restored.extend(rest.iter().copied().map(u64::from));
    restored
}
