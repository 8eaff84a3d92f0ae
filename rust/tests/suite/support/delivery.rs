//! Indexes as they are delivered: of a text, and readable ones of no text.

use mopekihua::HEADER;

use super::dictionary::Dictionary;
use super::oracle::{self, Key, Line};
use super::random::Random;
use super::text::{Subject, in_either_width, random_over, spelt};

/// A dictionary and an index that is readable with it.
#[derive(Clone, Debug)]
pub struct Delivery {
    pub dictionary: Dictionary,
    pub index: Vec<u16>,
}

/// The index of a text, with these words.
pub fn delivery(words: &str, text: &str) -> Delivery {
    Delivery::of_text(&Subject {
        dictionary: Dictionary::spelt(words),
        text: spelt(text),
    })
}

impl Delivery {
    /// The index of the text.
    pub fn of_text(subject: &Subject) -> Delivery {
        let dictionary = subject.dictionary.clone();
        let words = oracle::split(&dictionary.chars, &dictionary.lengths);
        let index = oracle::index_of(&words, &subject.text);
        Delivery { dictionary, index }
    }

    /// Keys and positions drawn at random, most of which no text has together:
    /// entries conflict, lie within each other and leave positions uncovered.
    pub fn random(random: &mut Random) -> Delivery {
        let subject = Subject::of_few_characters(random, 6);
        let dictionary = subject.dictionary;
        let words = oracle::split(&dictionary.chars, &dictionary.lengths);
        let n = random.within(0, 24);
        let mut characters = [dictionary.chars.clone(), subject.text].concat();
        characters.sort_unstable();
        characters.dedup();
        characters.retain(|&character| !words.contains(&vec![character]));
        let word_keys = (0..words.len()).map(|number| Key::Word(number as u16));
        let lone_keys = characters.into_iter().map(Key::Lone);
        let dense = random.within(1, 6);
        let mut lines: Vec<Line> = Vec::new();
        for key in word_keys.chain(lone_keys) {
            let last = (n + 1).saturating_sub(key.spells(&words).len()) as u16;
            let positions = (1..=last).filter(|_| random.within(0, dense) == 0);
            let positions: Vec<u16> = positions.collect();
            if !positions.is_empty() {
                lines.push((key, positions));
            }
        }
        let index = oracle::numbers(n as u16, &lines);
        Delivery { dictionary, index }
    }

    /// So many characters of the words, in either width, and of a.
    pub fn string(&self, random: &mut Random, length: usize) -> Vec<u16> {
        let alphabet = [&self.dictionary.chars[..], &[0x61]].concat();
        let string = random_over(&alphabet, random, length);
        in_either_width(&string, random)
    }

    /// The same entries behind as many positions that none covers.
    pub fn moved(mut self, by: u16) -> Delivery {
        let directory = HEADER + 3 * usize::from(self.index[1]);
        self.index[0] += by;
        for position in &mut self.index[directory..] {
            *position += by;
        }
        self
    }
}
