//! Admission of random dictionaries, right and damaged, against the oracle.

use crate::support::damage::Damage;
use crate::support::dictionary::Dictionary;
use crate::support::lists::all_lists;
use crate::support::oracle;
use crate::support::random::Random;

/// How often each answer was given: accepted, as 0, and refusals by their number.
#[derive(Debug, Default)]
struct Tally([usize; 13]);

impl Tally {
    /// Compares library and oracle on one dictionary, and counts the answer.
    fn compare(&mut self, dictionary: &Dictionary, context: impl std::fmt::Debug) {
        let expected = oracle::admit(&dictionary.chars, &dictionary.lengths);
        let answer = dictionary.admit();
        assert_eq!(answer, expected, "after {context:?}: {dictionary:?}");
        self.0[expected.map_or_else(|number| number as usize, |_| 0)] += 1;
    }

    /// No answer may be so rare that the comparison means little for it.
    #[track_caller]
    fn assert_at_least<const N: usize>(&self, least: [(usize, usize); N]) {
        for (answer, least) in least {
            let count = self.0[answer];
            assert!(
                count >= least,
                "answer {answer} only {count} times: {self:?}"
            );
        }
    }
}

/// A right dictionary of at least two words.
fn two_words_or_more(random: &mut Random) -> Dictionary {
    loop {
        let dictionary = Dictionary::random(random, 40);
        if dictionary.lengths.len() >= 2 {
            return dictionary;
        }
    }
}

#[test]
fn right_dictionaries_are_admitted() {
    let mut random = Random::seeded(1);
    let mut tally = Tally::default();
    for round in 0..5_000 {
        let dictionary = Dictionary::random(&mut random, 40);
        assert_eq!(dictionary.admit(), Ok(dictionary.lengths.len()));
        tally.compare(&dictionary, round);
    }
    tally.assert_at_least([(0, 5_000)]);
}

#[test]
fn damaged_dictionaries_meet_their_number() {
    let mut random = Random::seeded(2);
    for damage in Damage::ALL {
        let mut tally = Tally::default();
        for round in 0..1_000 {
            let mut dictionary = two_words_or_more(&mut random);
            damage.apply(&mut dictionary, &mut random);
            tally.compare(&dictionary, (damage, round));
        }
        match damage.meets() {
            Some(number) => assert_eq!(tally.0[number], 1_000, "{damage:?}"),
            None if damage == Damage::FullWidthCharacter => {
                tally.assert_at_least([(3, 250), (12, 250)]);
            }
            None => tally.assert_at_least([(0, 50), (3, 250)]),
        }
    }
}

#[test]
fn twice_damaged_dictionaries_meet_the_first_number_in_order() {
    let mut random = Random::seeded(3);
    let mut tally = Tally::default();
    for round in 0..5_000 {
        let mut dictionary = two_words_or_more(&mut random);
        let first = random.one_of(&[
            Damage::SwapNeighbours,
            Damage::RepeatWord,
            Damage::FullWidthWord,
        ]);
        let second = random.one_of(&Damage::ALL);
        first.apply(&mut dictionary, &mut random);
        second.apply(&mut dictionary, &mut random);
        tally.compare(&dictionary, (first, second, round));
    }
    tally.assert_at_least([(0, 20), (1, 500), (2, 2_000), (3, 1_000), (12, 150)]);
}

#[test]
fn large_dictionaries_on_both_sides_of_the_limits() {
    let mut random = Random::seeded(4);
    let mut tally = Tally::default();
    for round in 0..200 {
        let mut dictionary = Dictionary::random_large(&mut random);
        tally.compare(&dictionary, round);
        let damage = random.one_of(&Damage::ALL);
        damage.apply(&mut dictionary, &mut random);
        tally.compare(&dictionary, (damage, round));
    }
    tally.assert_at_least([(0, 40), (1, 100), (2, 30), (3, 30)]);
}

/// Every list of up to four lengths from 0 to 3 over every run of up to five
/// characters out of three, of which one is a full-width form.
#[test]
fn every_small_dictionary() {
    let mut tally = Tally::default();
    for chars in all_lists(&[0x0000, 0xFF5E, 0xFFFF], 5) {
        for lengths in all_lists(&[0, 1, 2, 3], 4) {
            let dictionary = Dictionary {
                chars: chars.clone(),
                lengths,
            };
            tally.compare(&dictionary, ());
        }
    }
    tally.assert_at_least([(0, 50), (2, 10_000), (3, 50), (12, 50)]);
}
