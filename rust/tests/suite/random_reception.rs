//! Reception and recovery of random indexes: of texts, which are recovered, and
//! of delivered ones against the oracle. Small ones are all tried, and received
//! exactly if one of all texts has them.

use std::collections::{BTreeSet, HashMap};

use crate::support::building::Room;
use crate::support::delivery::Delivery;
use crate::support::dictionary::Dictionary;
use crate::support::entries::{Indexed, numbers};
use crate::support::index_damage::IndexDamage;
use crate::support::lists::all_lists;
use crate::support::oracle;
use crate::support::random::Random;
use crate::support::reception::{assert_receives, recover};
use crate::support::text::{Subject, spelt};

/// The library builds the index of the text, receives it and recovers the replaced
/// text, with exactly as much lent as it takes, and with one number less.
fn try_out(subject: &Subject) {
    let Subject { dictionary, text } = subject;
    let index = mopekihua::build(&dictionary.chars, &dictionary.lengths, text)
        .expect("an admitted dictionary and a text");
    let exact = Room {
        output: text.len(),
        work: 8 * text.len(),
    };
    let text = &oracle::replaced(text);
    assert_receives(dictionary, &index, exact, Ok(text));
    if let Some(output) = exact.output.checked_sub(1) {
        assert_receives(dictionary, &index, Room { output, ..exact }, Ok(text));
        let work = exact.work - 1;
        assert_receives(dictionary, &index, Room { output, work }, Err(7));
    }
}

#[test]
fn texts_of_few_characters() {
    let mut random = Random::seeded(51);
    for _ in 0..3_000 {
        try_out(&Subject::of_few_characters(&mut random, 120));
    }
}

#[test]
fn texts_of_japanese() {
    let mut random = Random::seeded(52);
    for _ in 0..1_500 {
        try_out(&Subject::of_japanese(&mut random, 400));
    }
}

#[test]
fn words_that_share_their_first_characters() {
    let mut random = Random::seeded(53);
    for _ in 0..150 {
        try_out(&Subject::crowded(&mut random, 1_500));
    }
}

#[test]
fn long_texts() {
    let mut random = Random::seeded(54);
    for _ in 0..4 {
        try_out(&Subject::of_longest_text(&mut random));
    }
}

/// How often each answer was given.
#[derive(Debug, Default)]
struct Answers {
    received: usize,
    unreadable: usize,
    no_text: usize,
}

impl Answers {
    fn count(&mut self, Delivery { dictionary, index }: &Delivery) {
        let n = index.first().copied().map_or(0, usize::from);
        match recover(dictionary, index, Room::ample(n)) {
            Ok(_) => self.received += 1,
            Err(5) => self.unreadable += 1,
            Err(number) => {
                assert_eq!(number, 9);
                self.no_text += 1;
            }
        }
    }
}

#[test]
fn readable_indexes_of_no_text() {
    let mut random = Random::seeded(55);
    let mut answers = Answers::default();
    for _ in 0..4_000 {
        answers.count(&Delivery::random(&mut random));
    }
    assert!(answers.no_text >= 3_000, "{answers:?}");
    assert!(answers.received >= 50, "{answers:?}");
}

#[test]
fn damaged_indexes() {
    let mut random = Random::seeded(56);
    let mut all = Answers::default();
    for damage in IndexDamage::ALL {
        for _ in 0..400 {
            let subject = match random.within(0, 2) {
                0 => Subject::of_japanese(&mut random, 60),
                _ => Subject::of_few_characters(&mut random, 60),
            };
            if !subject.text.is_empty() {
                let mut delivery = Delivery::of_text(&subject);
                damage.apply(&mut delivery.index, &mut random);
                all.count(&delivery);
            }
        }
    }
    assert!(all.no_text >= 500 && all.unreadable >= 500, "{all:?}");
    assert!(all.received >= 100, "{all:?}");
}

/// The index is received with the dictionary lent, whichever it was built with.
#[test]
fn indexes_with_another_dictionary() {
    let mut random = Random::seeded(57);
    let mut answers = Answers::default();
    for _ in 0..3_000 {
        let subject = Subject::of_few_characters(&mut random, 30);
        let mut delivery = Delivery::of_text(&subject);
        if let Some(last) = delivery.dictionary.lengths.len().checked_sub(1) {
            delivery.dictionary.remove(random.within(0, last));
            answers.count(&delivery);
        }
    }
    assert!(
        answers.no_text >= 300 && answers.received >= 300,
        "{answers:?}"
    );
}

/// Every replaced text of this length, by its index.
fn texts_by_index(words: &[Vec<u16>], characters: &[u16], n: usize) -> HashMap<Vec<u16>, Vec<u16>> {
    all_lists(characters, n)
        .into_iter()
        .filter(|text| text.len() == n)
        .map(|text| (oracle::index_of(words, &text), oracle::replaced(&text)))
        .collect()
}

/// Every readable index with n up to 4 whose keys are words or one of these
/// characters, alone: every choice among the entries that lie within n. It is
/// received exactly if one of all texts has it. A text of other characters has
/// none of them.
#[track_caller]
fn try_every_index(words: &str, characters: &str, longest: usize) {
    let characters = spelt(characters);
    let replaced: BTreeSet<u16> = oracle::replaced(&characters).into_iter().collect();
    for n in 0..=longest {
        let blank = Indexed::new(Dictionary::spelt(words), vec![0; n]);
        let texts = texts_by_index(&blank.words, &characters, n);
        assert_eq!(texts.len(), replaced.len().pow(n as u32));
        let entries = blank.fitting(&characters);
        let mut received = 0;
        for choice in 0..1u32 << entries.len() {
            let chosen = (0..entries.len()).filter(|i| choice >> i & 1 == 1);
            let index = numbers(blank.n(), chosen.map(|i| entries[i]));
            let text = texts.get(&index);
            let expected = text.map(Vec::as_slice).ok_or(9);
            assert_receives(&blank.dictionary, &index, Room::ample(n), expected);
            received += usize::from(text.is_some());
        }
        assert_eq!(received, texts.len());
    }
}

#[test]
fn every_index_of_two_characters() {
    for words in ["", "a", "ab", "aa aab", "a aa aaa", "ab b ba"] {
        try_every_index(words, "ab", 4);
    }
}

#[test]
fn every_index_of_words_that_overlap() {
    try_every_index("ab aba ba", "ab", 4);
}

#[test]
fn every_index_of_three_characters() {
    for words in ["", "abc", "ab abc bc"] {
        try_every_index(words, "abc", 3);
    }
}

/// With a lone full-width form an index is received from no text.
#[test]
fn every_index_of_both_widths() {
    for words in ["", "a", "ab", "a ab"] {
        try_every_index(words, "aａb", 3);
    }
}

/// Every slice of up to eight numbers out of 0 to 2, readable or not. The texts
/// that these state are of up to two characters out of the same.
#[test]
fn every_small_slice() {
    let dictionary = Dictionary::of([vec![0], vec![2, 2]]);
    let words = oracle::split(&dictionary.chars, &dictionary.lengths);
    let texts = [0, 1, 2].map(|n| texts_by_index(&words, &[0, 1, 2], n));
    let mut answers = Answers::default();
    for index in all_lists(&[0, 1, 2], 8) {
        let readable = oracle::open(&dictionary.chars, &dictionary.lengths, &index).is_ok();
        let refusal = if readable { 9 } else { 5 };
        let text = texts.iter().find_map(|texts| texts.get(&index));
        let expected = text.map(Vec::as_slice).ok_or(refusal);
        assert_receives(&dictionary, &index, Room::ample(2), expected);
        answers.count(&Delivery {
            dictionary: dictionary.clone(),
            index,
        });
    }
    let short = texts.iter().flat_map(HashMap::keys);
    let short = short.filter(|index| index.len() <= 8).count();
    assert_eq!(answers.received, short);
    assert!(answers.no_text >= 5 && short >= 5, "{answers:?}");
}
