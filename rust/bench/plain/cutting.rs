//! The cut-down index: words that begin before the string are laid over its
//! start, keys that begin within it are found in the directory; then the
//! directory and the positions of those that bear.

use mopekihua::HEADER;

use super::Query;
use super::directory::Lines;
use super::searching::agree;

pub fn cut(query: Query, output: &mut [u16]) -> Result<usize, u32> {
    let mut replaced = [0; 256];
    let query = query.admit(&mut replaced)?;
    let keys = usize::from(query.index[1]);
    // A short index does not pay for clearing many flags.
    if keys <= 1_024 {
        cut_flagged(query, &mut [false; 1_024][..keys], output)
    } else if keys <= 8_192 {
        cut_flagged(query, &mut [false; 8_192][..keys], output)
    } else {
        cut_flagged(query, &mut [false; 65_536][..keys], output)
    }
}

fn cut_flagged(query: Query, flags: &mut [bool], output: &mut [u16]) -> Result<usize, u32> {
    let index = query.index;
    let (directory, positions) = index[HEADER..].split_at(3 * flags.len());
    let (keys, entries) = judge(&query, directory, flags);
    let size = HEADER + 3 * keys + entries;
    let Some(output) = output.get_mut(..size) else {
        return Err(8);
    };
    output[0] = index[0];
    output[1] = keys as u16;
    let (new_directory, mut new_positions) = output[HEADER..].split_at_mut(3 * keys);
    let mut new_lines = new_directory.chunks_exact_mut(3);
    let mut at = 0;
    for (line, &flag) in directory.chunks_exact(3).zip(flags.iter()) {
        let count = usize::from(line[2]);
        if flag {
            if let Some(slot) = new_lines.next() {
                slot.copy_from_slice(line);
            }
            let (front, back) = new_positions.split_at_mut(count);
            front.copy_from_slice(&positions[at..at + count]);
            new_positions = back;
        }
        at += count;
    }
    Ok(size)
}

/// Flags each line whose key bears on the string, and answers how many these are
/// and how many positions they have.
fn judge(query: &Query, directory: &[u16], flags: &mut [bool]) -> (usize, usize) {
    let string = query.string;
    let lines = Lines::new(query.chars, query.lengths, directory);
    for (line, flag) in flags[..lines.words].iter_mut().enumerate() {
        *flag = begins_before(lines.word(line), string);
    }
    for offset in 0..string.len() {
        lines.each_that_starts(&string[offset..], |line, _| flags[line] = true);
    }
    let (mut keys, mut entries) = (0, 0);
    for (flag, line) in flags.iter().zip(directory.chunks_exact(3)) {
        keys += usize::from(*flag);
        entries += if *flag { usize::from(line[2]) } else { 0 };
    }
    (keys, entries)
}

/// Whether the word agrees with the string and begins before it.
fn begins_before(word: &[u16], string: &[u16]) -> bool {
    (1..word.len()).any(|back| word[back] == string[0] && agree(&word[back..], string))
}
