//! The first position on long sheets. The library searches the first 8,192
//! starts, and then the rest; up to 1,024 starts have a table of their own. Here
//! strings come first at these seams and around them, cross them, and are covered
//! by entries that start before them.

use std::ops::RangeInclusive;

use crate::support::delivery::Delivery;
use crate::support::dictionary::Dictionary;
use crate::support::first::assert_first;
use crate::support::oracle::{self, Key, Line};
use crate::support::random::Random;
use crate::support::text::{Subject, random_over};

/// The last start that the small table has, and the last of the first window.
const SEAMS: [usize; 2] = [1_024, 8_192];

/// The shortest string, some around the longest word, and the longest.
const STRING_LENGTHS: [usize; 8] = [1, 2, 3, 31, 32, 33, 255, 256];

/// A character of no text here.
const STRANGE: u16 = 0xFFFF;

/// The last positions before a seam, and the first ones after it.
fn around(seam: usize) -> RangeInclusive<usize> {
    seam - 2..=seam + 3
}

/// The string is first found at this position.
#[track_caller]
fn is_first_at(delivery: &Delivery, string: &[u16], position: usize) {
    let Delivery { dictionary, index } = delivery;
    assert_first(dictionary, index, string, Ok(Some(position as u16)));
}

#[track_caller]
fn is_nowhere(delivery: &Delivery, string: &[u16]) {
    let Delivery { dictionary, index } = delivery;
    assert_first(dictionary, index, string, Ok(None));
}

/// No word; words of all lengths around the seams, most of which overlap; and
/// words of 32 characters side by side, of which one ends at each seam or one
/// behind it.
fn dictionaries(text: &[u16]) -> [Dictionary; 4] {
    let mut random = Random::seeded(91);
    let near = SEAMS.iter().flat_map(|seam| seam - 290..seam + 290);
    let overlapping = near.filter_map(|start| {
        let length = random.within(1, 32);
        (random.within(0, 2) > 0).then(|| text[start..start + length].to_vec())
    });
    let side_by_side = |text: &[u16]| Dictionary::of_set(text.chunks(32).map(<[u16]>::to_vec));
    [
        Dictionary::default(),
        Dictionary::of_set(overlapping.collect::<Vec<_>>()),
        side_by_side(&text[..9_600]),
        side_by_side(&text[1..9_601]),
    ]
}

/// The starts of strings of this length that start around a seam, or end there.
fn starts(seam: usize, length: usize) -> impl Iterator<Item = usize> {
    let ending = around(seam).map(move |end| end + 1 - length);
    around(seam).chain(ending)
}

#[test]
fn every_character_is_different() {
    let text: Vec<u16> = (0..9_800).collect();
    for dictionary in dictionaries(&text) {
        let delivery = Delivery::of_text(&Subject {
            dictionary,
            text: text.clone(),
        });
        for length in STRING_LENGTHS {
            for start in SEAMS.iter().flat_map(|&seam| starts(seam, length)) {
                let mut string = text[start - 1..start - 1 + length].to_vec();
                is_first_at(&delivery, &string, start);
                string[length / 2] = STRANGE;
                is_nowhere(&delivery, &string);
            }
        }
    }
}

/// Positions around the seams and behind them, each to have a character of its
/// own.
fn unique_characters() -> impl Iterator<Item = (usize, u16)> {
    let near = |&seam| around(seam).chain([seam + 31, seam + 32, seam + 255]);
    SEAMS.iter().flat_map(near).zip(0x3041..)
}

/// 10,000 of these characters, but for the unique ones.
fn text_with_unique_characters(alphabet: &[u16], random: &mut Random) -> Vec<u16> {
    let mut text = random_over(alphabet, random, 10_000);
    for (position, character) in unique_characters() {
        text[position - 1] = character;
    }
    text
}

/// Strings of such a text that have a unique character at their start, in their
/// middle or at their end.
#[track_caller]
fn finds_unique_characters(delivery: &Delivery, text: &[u16]) {
    for (position, _) in unique_characters() {
        for length in STRING_LENGTHS {
            for before in [0, length / 2, length - 1] {
                let start = position - before;
                let mut string = text[start - 1..start - 1 + length].to_vec();
                is_first_at(delivery, &string, start);
                string[before] = STRANGE;
                is_nowhere(delivery, &string);
            }
        }
    }
}

/// The text has one or two characters beside the unique ones, which the strings have
/// too. All of it stands there twice.
#[test]
fn few_characters_and_unique_ones() {
    let mut random = Random::seeded(92);
    for alphabet in [&[0x61][..], &[0x61, 0x62]] {
        let mut text = text_with_unique_characters(alphabet, &mut random);
        text.extend_from_within(..);
        for dictionary in dictionaries(&text) {
            let delivery = Delivery::of_text(&Subject {
                dictionary,
                text: text.clone(),
            });
            finds_unique_characters(&delivery, &text);
        }
    }
}

/// Two entries contradict one another at every position, so that no text shows
/// them, and any string of the two characters is covered everywhere.
#[test]
fn entries_that_contradict_everywhere() {
    let everywhere: Vec<u16> = (1..=10_000).collect();
    let mut lines: Vec<Line> = vec![
        (Key::Lone(0x61), everywhere.clone()),
        (Key::Lone(0x62), everywhere),
    ];
    for (position, character) in unique_characters() {
        lines.push((Key::Lone(character), vec![position as u16]));
    }
    let delivery = Delivery {
        dictionary: Dictionary::default(),
        index: oracle::numbers(10_000, &lines),
    };
    let mut random = Random::seeded(93);
    for _ in 0..3 {
        let text = text_with_unique_characters(&[0x61, 0x62], &mut random);
        finds_unique_characters(&delivery, &text);
    }
}

/// The last start lies at a seam or next to it, or the text is as long as one
/// can be.
#[test]
fn texts_that_end_at_a_seam() {
    for length in STRING_LENGTHS {
        let at_seams = SEAMS.iter().flat_map(|&seam| around(seam));
        for last in at_seams.chain([65_536 - length]) {
            let text: Vec<u16> = (0..).take(last + length - 1).collect();
            let delivery = Delivery::of_text(&Subject {
                dictionary: Dictionary::of([&text[last - 2..last]]),
                text: text.clone(),
            });
            is_first_at(&delivery, &text[last - 1..], last);
            is_first_at(&delivery, &text[..length], 1);
            let over_the_end = [&text[last..], &[STRANGE]].concat();
            is_nowhere(&delivery, &over_the_end);
        }
    }
}
