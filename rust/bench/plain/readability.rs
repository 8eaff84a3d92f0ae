//! Readability and the tally: one walk over the directory with the positions of
//! each line as it is reached, and for lone characters a walk over the words
//! beside it, since both ascend. A gap form is read by the same walk.

use mopekihua::HEADER;

use super::admission::admit;
use super::width::copy_replaced;

/// The first of lines 1, 2, 3, 12 and 5 that dictionary and index meet, if any.
pub fn admit_index(chars: &[u16], lengths: &[u16], index: &[u16]) -> Result<(), u32> {
    admit_form(chars, lengths, index, false)
}

/// The same for the index that a gap form restores to.
pub fn admit_gaps(chars: &[u16], lengths: &[u16], gaps: &[u16]) -> Result<(), u32> {
    admit_form(chars, lengths, gaps, true)
}

/// The flag says whether lists are read as gaps.
fn admit_form(chars: &[u16], lengths: &[u16], index: &[u16], as_gaps: bool) -> Result<(), u32> {
    admit(chars, lengths)?;
    if readable(chars, lengths, index, as_gaps) {
        Ok(())
    } else {
        Err(5)
    }
}

/// An index, and a string to look for in it.
#[derive(Clone, Copy)]
pub struct Query<'a> {
    pub chars: &'a [u16],
    pub lengths: &'a [u16],
    pub index: &'a [u16],
    pub string: &'a [u16],
}

impl<'a> Query<'a> {
    /// The query with its string replaced, into this array; or the first of lines
    /// 1, 2, 3, 12, 5 and 6 that it meets.
    pub fn admit(self, replaced: &'a mut [u16; 256]) -> Result<Query<'a>, u32> {
        admit_index(self.chars, self.lengths, self.index)?;
        if self.string.is_empty() || self.string.len() > 256 {
            return Err(6);
        }
        let string = &mut replaced[..self.string.len()];
        copy_replaced(self.string, string);
        Ok(Query { string, ..self })
    }
}

pub fn tally(chars: &[u16], lengths: &[u16], index: &[u16]) -> Result<([u64; 32], usize), u32> {
    admit_index(chars, lengths, index)?;
    let keys = usize::from(index[1]);
    let mut by_length = [0; 32];
    for line in index[HEADER..HEADER + 3 * keys].chunks_exact(3) {
        let len = if line[0] == 0 {
            lengths[usize::from(line[1])]
        } else {
            1
        };
        by_length[usize::from(len - 1) % 32] += u64::from(line[2]);
    }
    Ok((by_length, index.len() - 2 - 3 * keys))
}

fn readable(chars: &[u16], lengths: &[u16], index: &[u16], as_gaps: bool) -> bool {
    let &[n, keys, ref rest @ ..] = index else {
        return false;
    };
    let Some((directory, positions)) = rest.split_at_checked(3 * usize::from(keys)) else {
        return false;
    };
    let mut least = 0;
    let mut rest = positions;
    for (number, line) in directory.chunks_exact(3).enumerate() {
        let &[kind, value, count] = line else {
            return false;
        };
        if kind != 0 {
            let directory = &directory[3 * number..];
            return lone_lines_good(chars, lengths, n, directory, rest, as_gaps);
        }
        let Some(&len) = lengths.get(usize::from(value)) else {
            return false;
        };
        if usize::from(value) < least || !list_good(&mut rest, count, n, len, as_gaps) {
            return false;
        }
        least = usize::from(value) + 1;
    }
    rest.is_empty()
}

/// Whether these lines, of which each must be one of a lone character, are good,
/// and their positions are all that is left.
fn lone_lines_good(
    chars: &[u16],
    lengths: &[u16],
    n: u16,
    directory: &[u16],
    positions: &[u16],
    as_gaps: bool,
) -> bool {
    let mut rest = positions;
    let mut least = 0;
    let (mut word, mut at) = (0, 0);
    for line in directory.chunks_exact(3) {
        let &[kind, value, count] = line else {
            return false;
        };
        if kind != 1 || usize::from(value) < least {
            return false;
        }
        // The first word that does not start with a lower character.
        while word < lengths.len() && chars[at] < value {
            at += usize::from(lengths[word]);
            word += 1;
        }
        if word < lengths.len() && chars[at] == value && lengths[word] == 1 {
            return false;
        }
        if !list_good(&mut rest, count, n, 1, as_gaps) {
            return false;
        }
        least = usize::from(value) + 1;
    }
    rest.is_empty()
}

/// Takes the positions of a key of `len` characters off the rest, and says
/// whether they are there and good. Most lists have one number, which is a
/// position and its gap.
#[inline]
fn list_good(rest: &mut &[u16], count: u16, n: u16, len: u16, as_gaps: bool) -> bool {
    let Some((positions, after)) = rest.split_at_checked(usize::from(count)) else {
        return false;
    };
    *rest = after;
    let Some(&last) = positions.last() else {
        return false;
    };
    let (n, len) = (usize::from(n), usize::from(len));
    if count == 1 {
        return (usize::from(last) + len <= n + 1) & (last > 0);
    }
    if as_gaps {
        return gaps_good(positions, n, len);
    }
    usize::from(last) + len <= n + 1 && rise(positions)
}

/// Whether positions ascend strictly from 1 or more.
fn rise(positions: &[u16]) -> bool {
    let mut good = true;
    let mut last = 0;
    for &position in positions {
        good &= last < position;
        last = position;
    }
    good
}

/// Whether every gap is at least 1, and a key of `len` characters ends by n at
/// their sum. A count is at most 65,535, so no sum wraps.
fn gaps_good(gaps: &[u16], n: usize, len: usize) -> bool {
    let mut good = true;
    let mut sum: u32 = 0;
    for &gap in gaps {
        good &= gap != 0;
        sum += u32::from(gap);
    }
    good & (sum as usize + len <= n + 1)
}
