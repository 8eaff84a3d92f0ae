//! Texts with the entries of their indexes, to be given more, fewer or other
//! ones.

use std::collections::{BTreeMap, BTreeSet};

use mopekihua::HEADER;

use super::dictionary::Dictionary;
use super::oracle::{self, Key};

/// A key and a position.
pub type Entry = (Key, u16);

/// A text and its dictionary, with the entries of its index.
pub struct Indexed {
    pub dictionary: Dictionary,
    pub words: Vec<Vec<u16>>,
    pub text: Vec<u16>,
    pub entries: BTreeSet<Entry>,
}

impl Indexed {
    pub fn new(dictionary: Dictionary, text: Vec<u16>) -> Indexed {
        let words = oracle::split(&dictionary.chars, &dictionary.lengths);
        let entries = oracle::lines_of(&words, &text)
            .into_iter()
            .flat_map(|(key, positions)| positions.into_iter().map(move |p| (key, p)))
            .collect();
        Indexed {
            dictionary,
            words,
            text,
            entries,
        }
    }

    /// The stated length.
    pub fn n(&self) -> u16 {
        self.text.len() as u16
    }

    /// The key that spells this.
    pub fn key_of(&self, spelt: &[u16]) -> Key {
        match self.words.iter().position(|word| word == spelt) {
            Some(number) => Key::Word(number as u16),
            None => Key::Lone(spelt[0]),
        }
    }

    /// The positions that an entry covers, counted from 0.
    pub fn covers(&self, (key, position): Entry) -> std::ops::Range<usize> {
        let start = usize::from(position - 1);
        start..start + key.spells(&self.words).len()
    }

    /// Every entry of a word or of one of these characters that lies within the
    /// text's length, whether it stands in the text or not.
    pub fn fitting(&self, characters: &[u16]) -> Vec<Entry> {
        keys(&self.words, characters)
            .flat_map(|key| (1..=self.n()).map(move |position| (key, position)))
            .filter(|&entry| self.covers(entry).end <= self.text.len())
            .collect()
    }

    /// Every entry that stands in the text.
    pub fn standing(&self) -> Vec<Entry> {
        let mut entries = self.fitting(&self.text);
        entries.retain(|&entry| self.text[self.covers(entry)] == entry.0.spells(&self.words));
        entries
    }
}

/// The keys of all words, and of these characters as far as they are no words.
pub fn keys(words: &[Vec<u16>], characters: &[u16]) -> impl Iterator<Item = Key> {
    let lone: BTreeSet<u16> = characters
        .iter()
        .copied()
        .filter(|&character| !words.contains(&vec![character]))
        .collect();
    let word_keys = (0..words.len()).map(|number| Key::Word(number as u16));
    word_keys.chain(lone.into_iter().map(Key::Lone))
}

/// The readable index without its entries that start after this position, and
/// without the keys that this leaves empty.
pub fn starting_up_to(index: &[u16], last: usize) -> Vec<u16> {
    let (directory, mut positions) = index[HEADER..].split_at(3 * usize::from(index[1]));
    let (mut lines, mut kept) = (Vec::new(), Vec::new());
    for line in directory.chunks(3) {
        let (under, after) = positions.split_at(usize::from(line[2]));
        let count = under.partition_point(|&position| usize::from(position) <= last);
        if count > 0 {
            lines.push([line[0], line[1], count as u16]);
            kept.extend(&under[..count]);
        }
        positions = after;
    }
    [&[index[0], lines.len() as u16], lines.as_flattened(), &kept].concat()
}

/// The readable index with this n and these entries.
pub fn numbers(n: u16, entries: impl IntoIterator<Item = Entry>) -> Vec<u16> {
    let mut lines = BTreeMap::<Key, Vec<u16>>::new();
    for (key, position) in entries.into_iter().collect::<BTreeSet<_>>() {
        lines.entry(key).or_default().push(position);
    }
    oracle::numbers(n, &lines.into_iter().collect::<Vec<_>>())
}
