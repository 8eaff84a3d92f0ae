//! Building of random texts against the oracle, which takes all entries and
//! drops the contained ones.

use crate::support::building::{Room, assert_builds, build};
use crate::support::damage::Damage;
use crate::support::dictionary::Dictionary;
use crate::support::lists::all_lists;
use crate::support::random::Random;
use crate::support::text::{Subject, random_over, spelt};

/// Builds with exactly as much lent as it takes, and with one number less of
/// the output and of the work space.
fn try_out(subject: &Subject) {
    let Subject { dictionary, text } = subject;
    let index = build(dictionary, text, Room::ample(text.len())).expect("an admitted dictionary");
    let exact = Room {
        output: index.len(),
        work: 8 * text.len(),
    };
    let short = Room {
        output: exact.output - 1,
        ..exact
    };
    assert_builds(dictionary, text, exact, Ok(&index));
    assert_builds(dictionary, text, short, Err(8));
    if let Some(work) = exact.work.checked_sub(1) {
        assert_builds(dictionary, text, Room { work, ..short }, Err(7));
    }
}

#[test]
fn texts_of_few_characters() {
    let mut random = Random::seeded(11);
    for _ in 0..3_000 {
        try_out(&Subject::of_few_characters(&mut random, 120));
    }
}

#[test]
fn texts_of_japanese() {
    let mut random = Random::seeded(12);
    for _ in 0..1_500 {
        try_out(&Subject::of_japanese(&mut random, 400));
    }
}

#[test]
fn words_that_share_their_first_characters() {
    let mut random = Random::seeded(13);
    for _ in 0..150 {
        try_out(&Subject::crowded(&mut random, 1_500));
    }
}

/// One dictionary of all lengths up to 32 of one character, with any of them
/// left out.
#[test]
fn words_of_one_character_repeated() {
    let mut random = Random::seeded(14);
    let text = [7; 100];
    for _ in 0..500 {
        let words = (1..=32).filter(|_| random.within(0, 2) > 0);
        let dictionary = Dictionary::of_set(words.map(|long| vec![7; long]).collect::<Vec<_>>());
        let text = text[..random.within(0, 100)].to_vec();
        try_out(&Subject { dictionary, text });
    }
}

#[test]
fn long_texts() {
    let mut random = Random::seeded(15);
    for alphabet in [2u16, 60, 2_000] {
        let alphabet: Vec<u16> = (0x4E00..0x4E00 + alphabet).collect();
        let dictionary = Dictionary::random_over(&alphabet, &mut random, 4096, 8);
        let text = random_over(&alphabet, &mut random, 65_535);
        let room = Room::ample(text.len());
        let index = build(&dictionary, &text, room).expect("an admitted dictionary");
        assert!(index.len() > 20_000);
    }
}

/// Refused dictionaries too: the work slice is cleared, the output is not
/// touched, and the number is the oracle's.
#[test]
fn damaged_dictionaries() {
    let mut random = Random::seeded(16);
    let mut refused = 0;
    for _ in 0..2_000 {
        let mut subject = Subject::of_few_characters(&mut random, 40);
        if subject.dictionary.lengths.len() < 2 {
            continue;
        }
        random
            .one_of(&Damage::ALL)
            .apply(&mut subject.dictionary, &mut random);
        let room = Room {
            output: random.within(0, 100),
            work: random.within(0, 400),
        };
        refused += usize::from(build(&subject.dictionary, &subject.text, room).is_err());
    }
    assert!(refused > 1_000, "only {refused}");
}

/// Every text of up to six characters out of two, with every choice among
/// eight words.
#[test]
fn every_small_text() {
    let words = ["a", "aa", "aab", "ab", "abba", "b", "ba", "bab"].map(spelt);
    let texts = all_lists(&spelt("ab"), 6);
    for choice in 0..1 << words.len() {
        let chosen = (0..words.len()).filter(|i| choice >> i & 1 == 1);
        let dictionary = Dictionary::of(chosen.map(|i| &words[i]));
        for text in &texts {
            assert!(build(&dictionary, text, Room::ample(text.len())).is_ok());
        }
    }
}
