//! The complete index of a text, its maximal entries, and their numbers.

use std::collections::{BTreeMap, HashMap};

/// No word is longer.
const LONGEST_WORD: usize = 32;

/// A word by its number, or a lone character. Keys compare as their pairs of
/// kind and value do.
#[derive(Clone, Copy, Debug, PartialEq, Eq, PartialOrd, Ord)]
pub enum Key {
    Word(u16),
    Lone(u16),
}

impl Key {
    /// What the key spells.
    pub fn spells(self, words: &[Vec<u16>]) -> Vec<u16> {
        match self {
            Key::Word(number) => words[usize::from(number)].clone(),
            Key::Lone(character) => vec![character],
        }
    }

    fn pair(self) -> [u16; 2] {
        match self {
            Key::Word(number) => [0, number],
            Key::Lone(character) => [1, character],
        }
    }
}

/// A key and the positions at which it stands, the first position being 1.
pub type Line = (Key, Vec<u16>);

/// An entry without its position.
#[derive(Clone, Copy)]
struct Standing {
    key: Key,
    long: usize,
}

/// Building: the index, or the number of the refusal, for an output and a work
/// slice of these lengths.
pub fn build(
    chars: &[u16],
    lengths: &[u16],
    text: &[u16],
    output_len: usize,
    work_len: usize,
) -> Result<Vec<u16>, u32> {
    super::admit(chars, lengths)?;
    if text.len() > 65535 {
        return Err(4);
    }
    if work_len < 8 * text.len() {
        return Err(7);
    }
    super::put(index_of(&super::split(chars, lengths), text), output_len)
}

/// The numbers of the complete maximal word index of the replaced text.
pub fn index_of(words: &[Vec<u16>], text: &[u16]) -> Vec<u16> {
    numbers(text.len() as u16, &lines_of(words, text))
}

/// Its lines.
pub fn lines_of(words: &[Vec<u16>], text: &[u16]) -> Vec<Line> {
    let complete = complete(words, &super::replaced(text));
    let mut lines = BTreeMap::<Key, Vec<u16>>::new();
    for (at, standing) in complete.iter().enumerate() {
        for entry in standing {
            if !in_another(at, entry.long, &complete) {
                lines.entry(entry.key).or_default().push(at as u16 + 1);
            }
        }
    }
    lines.into_iter().collect()
}

/// All entries, by where they start, counted from 0.
fn complete(words: &[Vec<u16>], text: &[u16]) -> Vec<Vec<Standing>> {
    let numbers: HashMap<&[u16], u16> = words.iter().map(Vec::as_slice).zip(0..).collect();
    let entries_at = |at: usize| {
        let rest = &text[at..];
        let mut entries = Vec::new();
        for long in 1..=rest.len().min(LONGEST_WORD) {
            if let Some(&number) = numbers.get(&rest[..long]) {
                let key = Key::Word(number);
                entries.push(Standing { key, long });
            }
        }
        if !numbers.contains_key(&rest[..1]) {
            let key = Key::Lone(rest[0]);
            entries.push(Standing { key, long: 1 });
        }
        entries
    };
    (0..text.len()).map(entries_at).collect()
}

/// Whether the entry of this start and length lies within another one. What
/// contains it reaches as far as `at`, so it starts less than 32 before it. Two
/// entries of one start and length are the same entry.
fn in_another(at: usize, long: usize, complete: &[Vec<Standing>]) -> bool {
    (at.saturating_sub(LONGEST_WORD - 1)..=at).any(|start| {
        complete[start].iter().any(|other| {
            let itself = start == at && other.long == long;
            !itself && start + other.long >= at + long
        })
    })
}

/// The numbers of an index with these lines, in their order.
pub fn numbers(n: u16, lines: &[Line]) -> Vec<u16> {
    let mut numbers = vec![n, lines.len() as u16];
    for (key, positions) in lines {
        numbers.extend(key.pair());
        numbers.push(positions.len() as u16);
    }
    for (_, positions) in lines {
        numbers.extend(positions);
    }
    numbers
}
