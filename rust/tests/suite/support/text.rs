//! Texts, alone and together with a dictionary that has to do with them.

use super::dictionary::Dictionary;
use super::oracle::replaced;
use super::random::Random;

/// The characters of a string.
pub fn spelt(text: &str) -> Vec<u16> {
    text.encode_utf16().collect()
}

/// `n` of these characters, drawn evenly.
pub fn random_over(alphabet: &[u16], random: &mut Random, n: usize) -> Vec<u16> {
    (0..n).map(|_| random.one_of(alphabet)).collect()
}

/// The 65,442 characters that are no full-width form, each once, falling.
pub fn every_replaced_character() -> Vec<u16> {
    (0..=0xFF00).chain(0xFF5F..=0xFFFF).rev().collect()
}

/// The same lettering, with each character that comes in both widths in one of
/// them, drawn evenly.
pub fn in_either_width(lettering: &[u16], random: &mut Random) -> Vec<u16> {
    let mut drawn = replaced(lettering);
    for character in &mut drawn {
        if (0x21..=0x7E).contains(character) && random.within(0, 1) == 0 {
            *character += 0xFEE0;
        }
    }
    drawn
}

/// A dictionary and a text, in one width or in both.
#[derive(Clone, Debug)]
pub struct Subject {
    pub dictionary: Dictionary,
    pub text: Vec<u16>,
}

impl Subject {
    /// One to five characters, so that words nest, overlap and repeat.
    pub fn of_few_characters(random: &mut Random, longest_text: usize) -> Subject {
        let alphabet = few_characters(random);
        let longest_word = random.one_of(&[1, 2, 3, 6, 32]);
        let most = random.within(0, 60);
        let word_alphabet = replaced(&alphabet);
        let dictionary = Dictionary::random_over(&word_alphabet, random, most, longest_word);
        let n = random.within(0, longest_text);
        let mut text = random_over(&alphabet, random, n);
        if random.within(0, 1) == 0 {
            text = in_either_width(&text, random);
        }
        Subject { dictionary, text }
    }

    /// Kana, a few hundred kanji, and digits in either width, with words of 1 to 32
    /// characters cut from the text and from another one, so that they overlap and
    /// nest.
    pub fn of_japanese(random: &mut Random, longest_text: usize) -> Subject {
        let kanji = random.within(1, 400) as u16;
        let kana_and_digits = (0x3041..0x3097).chain(0x30..0x3A);
        let alphabet: Vec<u16> = kana_and_digits.chain(0x4E00..0x4E00 + kanji).collect();
        let n = random.within(1, longest_text);
        let text = in_either_width(&random_over(&alphabet, random, n), random);
        let other = random_over(&alphabet, random, 64);
        let mut words = Vec::new();
        for _ in 0..random.within(0, 120) {
            let from = if random.within(0, 4) == 0 {
                &other
            } else {
                &text
            };
            words.push(part_of(from, random));
        }
        let dictionary = Dictionary::of_set(words);
        Subject { dictionary, text }
    }

    /// A text of 65,535 characters, in which a shorter one is repeated.
    pub fn of_longest_text(random: &mut Random) -> Subject {
        let mut subject = Subject::of_japanese(random, 4_000);
        while subject.text.len() < 65_535 {
            subject.text.extend_from_within(..);
        }
        subject.text.truncate(65_535);
        subject
    }

    /// Up to 4,096 words over few characters, cut from the text, and prefixes of
    /// these: many share their first characters, whatever a table of words
    /// goes by.
    pub fn crowded(random: &mut Random, longest_text: usize) -> Subject {
        let alphabet = few_characters(random);
        let n = random.within(1, longest_text);
        let text = random_over(&alphabet, random, n);
        let mut words = Vec::new();
        for _ in 0..random.one_of(&[10, 100, 1000, 2000]) {
            let word = part_of(&text, random);
            words.push(word[..random.within(1, word.len())].to_vec());
            words.push(word);
        }
        let dictionary = Dictionary::of_set(words);
        Subject { dictionary, text }
    }
}

/// A word of 1 to 32 characters that stands in the replaced text, mostly a short
/// one.
fn part_of(text: &[u16], random: &mut Random) -> Vec<u16> {
    let start = random.below(text.len());
    let most = random.one_of(&[1, 2, 2, 3, 4, 8, 32]);
    let long = random.within(1, most).min(text.len() - start);
    replaced(&text[start..start + long])
}

/// One to five characters, some of them around the first and the last full-width
/// form and what these are replaced by. Half of the time they are equal in their
/// low bits, which hash tables go by.
fn few_characters(random: &mut Random) -> Vec<u16> {
    let count = random.within(1, 5);
    let first = random.one_of(&[
        0x0000, 0x0020, 0x0061, 0x007E, 0x3042, 0x4E00, 0xFF00, 0xFF5E, 0xFFFF,
    ]);
    let step = random.one_of(&[1, 37, 0x0800, 0x2000]);
    (0..count as u16)
        .map(|i| first ^ i.wrapping_mul(step))
        .collect()
}
