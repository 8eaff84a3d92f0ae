//! Reception and recovery: the text is reconstructed from the entries, and the
//! line map has at each start of an entry the number of its directory line. The
//! step of building is then run over the reconstructed text: what it registers
//! must be what the line map has, and as many. The text must hold no full-width
//! form.

use mopekihua::HEADER;

use super::building::{LONE, step};
use super::matching::MatchTable;
use super::readability::admit_index;
use super::width::holds_full_width;

pub fn receive(
    chars: &[u16],
    lengths: &[u16],
    index: &[u16],
    work: &mut [u16],
) -> Result<usize, u32> {
    let answer = text_of(chars, lengths, index, work).map(<[u16]>::len);
    work.fill(0);
    answer
}

pub fn recover(
    chars: &[u16],
    lengths: &[u16],
    index: &[u16],
    output: &mut [u16],
    work: &mut [u16],
) -> Result<usize, u32> {
    let answer = text_of(chars, lengths, index, work).and_then(|text| {
        let front = output.get_mut(..text.len()).ok_or(8u32)?;
        front.copy_from_slice(text);
        Ok(text.len())
    });
    work.fill(0);
    answer
}

/// The text that has the index, at the front of the work slice.
fn text_of<'a>(
    chars: &[u16],
    lengths: &[u16],
    index: &[u16],
    work: &'a mut [u16],
) -> Result<&'a [u16], u32> {
    admit_index(chars, lengths, index)?;
    let n = usize::from(index[0]);
    if work.len() < 8 * n {
        return Err(7);
    }
    let (text, line_map) = work[..2 * n].split_at_mut(n);
    line_map.fill(0);
    let table = MatchTable::new(chars, lengths);
    let (directory, positions) = index[HEADER..].split_at(3 * usize::from(index[1]));
    reconstruct(&table, directory, positions, text, line_map);
    let has_it = registered(&table, directory, text, line_map) == Some(positions.len());
    if has_it && !holds_full_width(text) {
        Ok(text)
    } else {
        Err(9)
    }
}

/// Reconstructs the text and fills the line map: each entry's characters at its
/// position, and the number of its line + 1 at its start.
fn reconstruct(
    table: &MatchTable,
    directory: &[u16],
    positions: &[u16],
    text: &mut [u16],
    line_map: &mut [u16],
) {
    let mut rest = positions;
    for (number, line) in directory.chunks_exact(3).enumerate() {
        let (positions, after) = rest.split_at(usize::from(line[2]));
        rest = after;
        let spelt = if line[0] == 0 {
            table.word(usize::from(line[1]))
        } else {
            &line[1..2]
        };
        for &position in positions {
            let start = usize::from(position) - 1;
            line_map[start] = number as u16 + 1;
            for (character, &shown) in text[start..start + spelt.len()].iter_mut().zip(spelt) {
                *character = shown;
            }
        }
    }
}

/// How many entries the text has registered, if the line map has each where it
/// starts.
fn registered(
    table: &MatchTable,
    directory: &[u16],
    text: &[u16],
    line_map: &[u16],
) -> Option<usize> {
    let mut count = 0;
    let mut last = 0;
    for (at, (&character, &mapped)) in text.iter().zip(line_map).enumerate() {
        let token;
        (token, last) = step(table, text, at, last);
        if token == 0 {
            continue;
        }
        let line = 3 * usize::from(mapped).checked_sub(1)?;
        let key = if token == LONE {
            [1, character]
        } else {
            [0, token - 1]
        };
        if directory[line..line + 2] != key {
            return None;
        }
        count += 1;
    }
    Some(count)
}
