//! The gap form and back. One walk tests; then header and directory are copied, and
//! the lists are written as one. Most are short, and a loop over each would end with a
//! mispredicted branch.

use mopekihua::HEADER;

use super::readability::{admit_gaps, admit_index};

pub fn to_gaps(
    chars: &[u16],
    lengths: &[u16],
    index: &[u16],
    output: &mut [u16],
) -> Result<usize, u32> {
    admit_index(chars, lengths, index)?;
    write(index, output, write_gaps)
}

pub fn from_gaps(
    chars: &[u16],
    lengths: &[u16],
    gaps: &[u16],
    output: &mut [u16],
) -> Result<usize, u32> {
    admit_gaps(chars, lengths, gaps)?;
    write(gaps, output, write_sums)
}

/// Copies the header and the directory, and leaves the positions to `write_lists`.
/// It is handed where they start.
fn write(
    index: &[u16],
    output: &mut [u16],
    write_lists: impl Fn(&[u16], usize, &mut [u16]),
) -> Result<usize, u32> {
    let Some(output) = output.get_mut(..index.len()) else {
        return Err(8);
    };
    let first = HEADER + 3 * usize::from(index[1]);
    output[..first].copy_from_slice(&index[..first]);
    write_lists(index, first, output);
    Ok(index.len())
}

/// All positions as distances from the number before, as if they were one list;
/// then the first of each list as it is.
fn write_gaps(index: &[u16], first: usize, output: &mut [u16]) {
    let pairs = index[first - 1..].windows(2);
    for (slot, pair) in output[first..].iter_mut().zip(pairs) {
        *slot = pair[1].saturating_sub(pair[0]);
    }
    each_start(index, first, |start| output[start] = index[start]);
}

/// Prefix sums of all gaps, through masks in the output: 0 where a list starts,
/// which drops the sum before it.
fn write_sums(gaps: &[u16], first: usize, output: &mut [u16]) {
    output[first..].fill(u16::MAX);
    each_start(gaps, first, |start| output[start] = 0);
    let mut sum = 0;
    for (slot, &gap) in output[first..].iter_mut().zip(&gaps[first..]) {
        sum = (sum & *slot) + gap;
        *slot = sum;
    }
}

/// Where each list starts.
fn each_start(index: &[u16], first: usize, mut visit: impl FnMut(usize)) {
    let mut start = first;
    for line in index[HEADER..first].chunks_exact(3) {
        visit(start);
        start += usize::from(line[2]);
    }
}
