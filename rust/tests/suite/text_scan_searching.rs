//! Search where keys that start with the string's characters have very many
//! positions: texts of few characters and strings as long as they may be. Where
//! entries contradict one another or leave gaps, too.

use crate::support::delivery::Delivery;
use crate::support::dictionary::Dictionary;
use crate::support::oracle::{self, Key, numbers};
use crate::support::searching::{assert_finds, search};
use crate::support::text::{Subject, spelt};

/// The index of `n` characters that repeat these, with a word for each of the
/// lengths, a prefix of the text.
fn repeated(period: &[u16], n: usize, word_lengths: &[usize]) -> (Vec<u16>, Delivery) {
    let text: Vec<u16> = period.iter().copied().cycle().take(n).collect();
    let words = word_lengths.iter().map(|&long| text[..long].to_vec());
    let delivery = Delivery::of_text(&Subject {
        dictionary: Dictionary::of_set(words),
        text: text.clone(),
    });
    (text, delivery)
}

/// The string is found where it stands in the text, in an output just as long.
#[track_caller]
fn finds_as_in(text: &[u16], delivery: &Delivery, string: &[u16]) {
    let Delivery { dictionary, index } = delivery;
    let positions = oracle::positions_in_text(text, string);
    assert_finds(dictionary, index, string, positions.len(), Ok(&positions));
    if let Some(short) = positions.len().checked_sub(1) {
        assert_finds(dictionary, index, string, short, Err(8));
    }
}

#[test]
fn equal_characters() {
    for word_lengths in [&[][..], &[1], &[1, 2, 3], &[32], &[5, 32]] {
        for n in [255, 256, 257, 3_000, 65_535] {
            let (text, delivery) = repeated(&[0x61], n, word_lengths);
            for long in [1, 2, 5, 31, 32, 33, 255, 256] {
                finds_as_in(&text, &delivery, &vec![0x61; long]);
            }
            let mut other = [0x61; 256];
            other[200] = 0x62;
            finds_as_in(&text, &delivery, &other);
        }
    }
}

#[test]
fn texts_that_repeat_themselves() {
    let many: Vec<u16> = (0..63).collect();
    for period in [&spelt("ab")[..], &spelt("aab"), &spelt("abaababa"), &many] {
        for word_lengths in [&[][..], &[1, 2, 3], &[7, 30]] {
            let (text, delivery) = repeated(period, 4_000, word_lengths);
            for (start, long) in [(0, 256), (1, 255), (5, 256), (3, 40), (3_744, 256)] {
                let mut string = text[start..start + long].to_vec();
                finds_as_in(&text, &delivery, &string);
                string[long / 2] = period[0];
                finds_as_in(&text, &delivery, &string);
            }
        }
    }
}

/// Every position has two entries, so any string of the two characters is found
/// everywhere, and no text shows that.
#[test]
fn entries_that_contradict_everywhere() {
    let everywhere: Vec<u16> = (1..=400).collect();
    let lines = [
        (Key::Lone(0x61), everywhere.clone()),
        (Key::Lone(0x62), everywhere.clone()),
    ];
    let (dictionary, index) = (Dictionary::default(), numbers(400, &lines));
    for string in ["a", "b", "aaaaaaaaaa", "ababababababab", "abbbbbbbbbabaa"] {
        let starts = &everywhere[..401 - string.len()];
        assert_finds(&dictionary, &index, &spelt(string), 400, Ok(starts));
    }
    assert_finds(&dictionary, &index, &spelt("aaaaaaaaaac"), 400, Ok(&[]));
}

/// One entry more than a text has, at its end.
#[test]
fn entries_that_contradict_once() {
    let lines = [
        (Key::Word(0), (1..=60).collect()),
        (Key::Word(1), (1..=59).collect()),
        (Key::Lone(0x62), vec![60]),
    ];
    let (dictionary, index) = (Dictionary::spelt("a aa"), numbers(60, &lines));
    for string in [
        "aaaaaaaaaaaa",
        "aaaaaaaaaaab",
        "aaaaaaaaaaba",
        "b",
        "ab",
        "ba",
    ] {
        let found = search(&dictionary, &index, &spelt(string), 60);
        assert!(found.is_ok(), "{string}");
    }
    let ends_in_b = search(&dictionary, &index, &spelt("aaaaaaaaab"), 60);
    assert_eq!(ends_in_b, Ok(vec![51]));
}

/// What no entry covers is no character, whichever the string has.
#[test]
fn positions_without_an_entry() {
    for character in [0, 1, 0x61, 65_535] {
        let positions: Vec<u16> = (1..=300).filter(|position| position % 30 != 0).collect();
        let lines = [(Key::Lone(character), positions)];
        let (dictionary, index) = (Dictionary::default(), numbers(300, &lines));
        for long in [1, 8, 29, 30, 31, 256] {
            for gap in [0, 1, 2, 0x61] {
                let mut string = vec![character; long];
                string[long / 2] = gap;
                let _ = search(&dictionary, &index, &string, 300);
            }
            let found = search(&dictionary, &index, &vec![character; long], 300);
            assert_eq!(
                found.map(|found| found.len()),
                Ok(10 * 30_usize.saturating_sub(long))
            );
        }
    }
}
