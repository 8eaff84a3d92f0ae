//! Delivered numbers: what is readable, and the tally.

use super::{Key, Line};

/// A readable index and its dictionary.
pub struct Opened {
    pub words: Vec<Vec<u16>>,
    pub n: u16,
    pub lines: Vec<Line>,
}

impl Opened {
    /// The position of each entry, and what its key spells.
    pub fn entries(&self) -> Vec<(usize, Vec<u16>)> {
        let mut entries = Vec::new();
        for (key, positions) in &self.lines {
            let spelt = key.spells(&self.words);
            entries.extend(
                positions
                    .iter()
                    .map(|&start| (usize::from(start), spelt.clone())),
            );
        }
        entries
    }
}

/// The index, or the number of the refusal.
pub fn open(chars: &[u16], lengths: &[u16], numbers: &[u16]) -> Result<Opened, u32> {
    super::admit(chars, lengths)?;
    let words = super::split(chars, lengths);
    let lines = read(&words, numbers).ok_or(5u32)?;
    let n = numbers[0];
    Ok(Opened { words, n, lines })
}

/// The lines of these numbers, if they are a readable index with these words.
fn read(words: &[Vec<u16>], numbers: &[u16]) -> Option<Vec<Line>> {
    let &[n, keys, ref rest @ ..] = numbers else {
        return None;
    };
    let (directory, positions) = rest.split_at_checked(3 * usize::from(keys))?;
    let mut positions = positions.iter().copied();
    let mut lines = Vec::new();
    for line in directory.chunks(3) {
        let key = key(words, line[0], line[1])?;
        let listed: Vec<u16> = positions.by_ref().take(usize::from(line[2])).collect();
        if listed.is_empty() || listed.len() != usize::from(line[2]) {
            return None;
        }
        lines.push((key, listed));
    }
    let ascend = lines.windows(2).all(|pair| pair[0].0 < pair[1].0);
    let within = lines.iter().all(|line| positions_good(words, n, line));
    (positions.next().is_none() && ascend && within).then_some(lines)
}

/// The key of a directory line, if it is one with these words.
fn key(words: &[Vec<u16>], kind: u16, value: u16) -> Option<Key> {
    match kind {
        0 if usize::from(value) < words.len() => Some(Key::Word(value)),
        1 if !words.contains(&vec![value]) => Some(Key::Lone(value)),
        _ => None,
    }
}

/// Whether positions ascend strictly from 1 or more, and the last character of
/// the key falls at or before n at each.
fn positions_good(words: &[Vec<u16>], n: u16, (key, positions): &Line) -> bool {
    let long = key.spells(words).len();
    positions.windows(2).all(|pair| pair[0] < pair[1])
        && positions
            .iter()
            .all(|&position| position >= 1 && usize::from(position) + long - 1 <= usize::from(n))
}

/// The tally: 32 counts and their sum, or the number of the refusal.
pub fn tally(chars: &[u16], lengths: &[u16], numbers: &[u16]) -> Result<([u64; 32], usize), u32> {
    let Opened { words, lines, .. } = open(chars, lengths, numbers)?;
    let mut by_length = [0; 32];
    let mut count = 0;
    for (key, positions) in &lines {
        by_length[key.spells(&words).len() - 1] += positions.len() as u64;
        count += positions.len();
    }
    Ok((by_length, count))
}
