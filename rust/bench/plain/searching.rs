//! Search: the reach, the length of the covered prefix of the string, for each
//! start at which it may be laid. The leading keys, which begin at its start or
//! before it, come first, then those that begin within it, by ascending offset.
//! Where that would visit many positions, the text is reconstructed and scanned.

use super::Query;
use super::directory::Directory;
use super::text_scan::{prefers_text_scan, reach_reconstructed};

/// The fewest starts for which the longer array is taken: a short sheet does
/// not pay for clearing it.
const FEW: usize = 4_096;

pub fn search(query: Query, output: &mut [u16]) -> Result<usize, u32> {
    let mut replaced = [0; 256];
    let query = query.admit(&mut replaced)?;
    let starts = (usize::from(query.index[0]) + 1).saturating_sub(query.string.len());
    if starts <= FEW {
        let mut reach = [0; FEW];
        find(query, &mut reach[..starts], output)
    } else {
        let mut reach = [0; 65_535];
        find(query, &mut reach[..starts], output)
    }
}

fn find(query: Query, reach: &mut [u16], output: &mut [u16]) -> Result<usize, u32> {
    let string = query.string;
    let directory = Directory::new(query.chars, query.lengths, query.index);
    let n = usize::from(query.index[0]);
    if !(prefers_text_scan(&directory, n, string)
        && reach_reconstructed(&directory, n, string, reach))
    {
        let leading = Leading::new(&directory, string);
        reach_laid(&directory, string, &leading, 1, reach);
    }
    let whole = string.len() as u16;
    let count = reach.iter().filter(|&&reach| reach >= whole).count();
    let Some(output) = output.get_mut(..count) else {
        return Err(8);
    };
    let found = reach.iter().zip(1..).filter(|(reach, _)| **reach >= whole);
    for (slot, (_, position)) in output.iter_mut().zip(found) {
        *slot = position;
    }
    Ok(count)
}

/// The leading keys: the lines of words that agree with the string and begin at
/// its start or before it. They are the same for every window.
pub struct Leading {
    lines: [u16; 4_096],
    count: usize,
}

impl Leading {
    pub fn new(directory: &Directory, string: &[u16]) -> Leading {
        let mut leading = Leading {
            lines: [0; 4_096],
            count: 0,
        };
        for line in 0..directory.lines.words {
            if agreeing(directory.lines.word(line), string)
                .next()
                .is_some()
            {
                leading.lines[leading.count] = line as u16;
                leading.count += 1;
            }
        }
        leading
    }
}

/// How many characters of the word lie before the string where it agrees.
fn agreeing(word: &[u16], string: &[u16]) -> impl Iterator<Item = usize> {
    (0..word.len()).filter(|&back| word[back] == string[0] && agree(&word[back..], string))
}

/// Extends the reach of each start of a window, whose first is `first`, by every
/// key that agrees, by ascending offset. Answers how far any start reaches.
pub fn reach_laid(
    directory: &Directory,
    string: &[u16],
    leading: &Leading,
    first: usize,
    reach: &mut [u16],
) -> usize {
    let mut cover = Cover {
        reach,
        first,
        most: 0,
        whole: string.len(),
    };
    cover_leading(directory, string, leading, &mut cover);
    for offset in 1..string.len() {
        if usize::from(cover.most) < offset {
            break;
        }
        let lines = &directory.lines;
        lines.each_that_starts(&string[offset..], |line, len| {
            cover.extend(directory.positions(line), offset, len);
        });
    }
    usize::from(cover.most)
}

/// Keys that agree with the string and begin at its start or before it.
fn cover_leading(directory: &Directory, string: &[u16], leading: &Leading, cover: &mut Cover) {
    let lines = &directory.lines;
    for &line in &leading.lines[..leading.count] {
        let line = usize::from(line);
        let word = lines.word(line);
        for back in agreeing(word, string) {
            cover.lay(directory.positions(line), back, word.len() - back);
        }
    }
    if let Some(line) = lines.lone(string[0]) {
        cover.lay(directory.positions(line), 0, 1);
    }
}

/// Whether two strings that begin together are equal where both lie.
pub fn agree(one: &[u16], other: &[u16]) -> bool {
    let shared = one.len().min(other.len());
    one[..shared] == other[..shared]
}

/// The reach of each start of a window: the length of the covered prefix of the
/// string.
struct Cover<'a> {
    reach: &'a mut [u16],
    first: usize,
    most: u16,
    whole: usize,
}

impl Cover<'_> {
    /// Entries of which the string covers the last `len` characters, `back`
    /// characters after their start.
    fn lay(&mut self, positions: &[u16], back: usize, len: usize) {
        let covered = len.min(self.whole) as u16;
        let positions = in_window(positions, self.first, back, 0, self.reach.len());
        for &position in positions {
            let reach = &mut self.reach[usize::from(position) + back - self.first];
            *reach = (*reach).max(covered);
        }
        if !positions.is_empty() {
            self.most = self.most.max(covered);
        }
    }

    /// Entries that begin `offset` characters into the string: they add to what
    /// reaches as far.
    fn extend(&mut self, positions: &[u16], offset: usize, len: usize) {
        let covered = (offset + len).min(self.whole) as u16;
        let least = offset as u16;
        let mut some = false;
        for &position in in_window(positions, self.first, 0, offset, self.reach.len()) {
            let reach = &mut self.reach[usize::from(position) - offset - self.first];
            // From `least` up, and below `covered`.
            if reach.wrapping_sub(least) < covered - least {
                *reach = covered;
                some = true;
            }
        }
        if some {
            self.most = self.most.max(covered);
        }
    }
}

/// The positions of entries that begin `back` characters before, or `offset`
/// after, one of `starts` starts from `first` on.
fn in_window(positions: &[u16], first: usize, back: usize, offset: usize, starts: usize) -> &[u16] {
    let from = lower_bound(positions, (first + offset).saturating_sub(back));
    let to = lower_bound(positions, (first + offset + starts).saturating_sub(back));
    &positions[from..to]
}

/// How many positions are below `least`: most often none or all.
fn lower_bound(positions: &[u16], least: usize) -> usize {
    match positions {
        [first, ..] if usize::from(*first) >= least => 0,
        [.., last] if usize::from(*last) < least => positions.len(),
        _ => positions.partition_point(|&position| usize::from(position) < least),
    }
}
