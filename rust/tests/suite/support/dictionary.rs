//! Dictionaries as they are lent, and what the library answers to one.

use std::collections::BTreeSet;
use std::fmt;

use super::lent::{GUARDS, Lent, few};
use super::oracle::replaced;
use super::random::Random;

#[derive(Clone, Default)]
pub struct Dictionary {
    pub chars: Vec<u16>,
    pub lengths: Vec<u16>,
}

/// Few enough numbers to read where a test fails.
impl fmt::Debug for Dictionary {
    fn fmt(&self, f: &mut fmt::Formatter<'_>) -> fmt::Result {
        f.debug_struct("Dictionary")
            .field("chars_len", &self.chars.len())
            .field("chars", &few(&self.chars))
            .field("lengths_len", &self.lengths.len())
            .field("lengths", &few(&self.lengths))
            .finish()
    }
}

impl Dictionary {
    /// The words in the order given.
    pub fn of<W: AsRef<[u16]>>(words: impl IntoIterator<Item = W>) -> Self {
        let mut dictionary = Dictionary::default();
        for word in words {
            dictionary.push(word.as_ref());
        }
        dictionary
    }

    /// The words of a string, in the order given.
    pub fn spelt(words: &str) -> Self {
        Self::of(
            words
                .split_whitespace()
                .map(|word| word.encode_utf16().collect::<Vec<u16>>()),
        )
    }

    /// `count` words of one character each, 0, 1, 2 and so on.
    pub fn of_single_characters(count: u16) -> Self {
        Self::of((0..count).map(|character| [character]))
    }

    /// Ascending words with `total` characters in all: each starts with its own
    /// number, and they are 32 characters long but for the last.
    pub fn of_total_length(total: usize) -> Self {
        let all = vec![0xFFFF; total];
        let mut dictionary = Self::of(all.chunks(32));
        for (number, at) in (0..total).step_by(32).enumerate() {
            dictionary.chars[at] = number as u16;
        }
        dictionary
    }

    /// An admitted dictionary of at most `most` words over few characters, so
    /// that words share beginnings and are prefixes of each other.
    pub fn random(random: &mut Random, most: usize) -> Self {
        let alphabet: Vec<u16> = (0..random.within(1, 4))
            .map(|_| match random.within(0, 3) {
                0 => random.one_of(&[
                    0x0000, 0xFFFF, 0x7FFF, 0x8000, 0xD83D, 0xDC00, 0x0021, 0x007E, 0xFF00, 0xFF5F,
                ]),
                _ => random.character(),
            })
            .collect();
        let longest = random.one_of(&[1, 2, 3, 6, 32]);
        let count = random.within(0, most);
        Self::random_over(&replaced(&alphabet), random, count, longest)
    }

    /// An admitted dictionary of at most `most` words of at most `longest` of
    /// these characters; fewer where the same word is drawn twice.
    pub fn random_over(alphabet: &[u16], random: &mut Random, most: usize, longest: usize) -> Self {
        let words = (0..most).map(|_| {
            let length = random.within(1, longest);
            (0..length).map(|_| random.one_of(alphabet)).collect()
        });
        Self::of_set(words)
    }

    /// These words in ascending order, each once, without those for which a
    /// dictionary has no room.
    pub fn of_set(words: impl IntoIterator<Item = Vec<u16>>) -> Self {
        let mut dictionary = Dictionary::default();
        for word in words.into_iter().collect::<BTreeSet<_>>() {
            if dictionary.lengths.len() < 4096 && dictionary.chars.len() + word.len() <= 65_535 {
                dictionary.push(&word);
            }
        }
        dictionary
    }

    /// A right dictionary and one for each of refusals 1, 2, 3 and 12, with the
    /// number.
    pub fn good_and_refused() -> [(Self, Option<u32>); 5] {
        [
            (Self::spelt("ab abc bcd"), None),
            (Self::of_single_characters(4097), Some(1)),
            (Self::of([[7; 33]]), Some(2)),
            (Self::spelt("b a"), Some(3)),
            (Self::spelt("ab ａ"), Some(12)),
        ]
    }

    /// Near the two limits of refusal 1, on either side of them; words ascend.
    pub fn random_large(random: &mut Random) -> Self {
        match random.within(0, 2) {
            0 => Self::of_single_characters(random.within(4090, 4102) as u16),
            1 => Self::of_total_length(random.within(65_530, 65_541)),
            _ => {
                let mut dictionary = Self::of_total_length(random.within(65_000, 65_541));
                let split = random.below(dictionary.lengths.len() - 1);
                // A word of 32 characters cut in two keeps the sum; the second
                // half starts with 0xFFFF, so the words no longer ascend.
                dictionary.lengths[split] = 16;
                dictionary.lengths.insert(split, 16);
                dictionary
            }
        }
    }

    pub fn push(&mut self, word: &[u16]) {
        self.chars.extend_from_slice(word);
        self.lengths.push(word.len() as u16);
    }

    /// Puts a word in front of the one with this number.
    pub fn insert(&mut self, number: usize, word: &[u16]) {
        let start = self.start(number);
        self.lengths.insert(number, word.len() as u16);
        self.chars.splice(start..start, word.iter().copied());
    }

    pub fn remove(&mut self, number: usize) {
        let start = self.start(number);
        let end = start + usize::from(self.lengths.remove(number));
        self.chars.drain(start..end);
    }

    /// Where the word with this number starts among the characters.
    pub fn start(&self, number: usize) -> usize {
        self.lengths[..number].iter().map(|&l| usize::from(l)).sum()
    }

    pub fn word(&self, number: usize) -> Vec<u16> {
        let start = self.start(number);
        self.chars[start..start + usize::from(self.lengths[number])].to_vec()
    }

    /// The library's answer: the number of words or of the refusal. Nothing
    /// that was lent is changed.
    pub fn admit(&self) -> Result<usize, u32> {
        let [first, second] = GUARDS.map(|guard| {
            let chars = Lent::new(&self.chars, guard);
            let lengths = Lent::new(&self.lengths, guard);
            let answer = mopekihua::admit(chars.inner(), lengths.inner());
            chars.assert_holds(&self.chars, "chars");
            lengths.assert_holds(&self.lengths, "lengths");
            answer.map_err(mopekihua::Refusal::number)
        });
        assert_eq!(first, second, "{self:?}");
        first
    }
}
