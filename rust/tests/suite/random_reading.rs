//! Readability and tally of random indexes, right and damaged, against the
//! oracle.

use crate::support::delivery::Delivery;
use crate::support::dictionary::Dictionary;
use crate::support::index_damage::IndexDamage;
use crate::support::lists::all_lists;
use crate::support::random::Random;
use crate::support::reading::tally;
use crate::support::text::Subject;

/// A dictionary and the index of a text of at least one character.
fn random_index(random: &mut Random) -> Delivery {
    loop {
        let subject = match random.within(0, 2) {
            0 => Subject::of_japanese(random, 60),
            _ => Subject::of_few_characters(random, 60),
        };
        if !subject.text.is_empty() {
            return Delivery::of_text(&subject);
        }
    }
}

#[test]
fn indexes_of_texts_are_readable() {
    let mut random = Random::seeded(21);
    for _ in 0..2_000 {
        let Delivery { dictionary, index } = random_index(&mut random);
        let (by_length, count) = tally(&dictionary, &index).expect("the index of a text");
        assert_eq!(by_length.iter().sum::<u64>(), count as u64);
        assert_eq!(count, index.len() - 2 - 3 * usize::from(index[1]));
    }
}

#[test]
fn damaged_indexes() {
    let mut random = Random::seeded(22);
    for damage in IndexDamage::ALL {
        let mut refused = 0;
        for _ in 0..1_000 {
            let Delivery {
                dictionary,
                mut index,
            } = random_index(&mut random);
            damage.apply(&mut index, &mut random);
            refused += usize::from(tally(&dictionary, &index).is_err());
        }
        assert!(refused >= 100, "{damage:?} is refused only {refused} times");
    }
}

/// Half of these are still readable: the damage is to a position.
#[test]
fn lightly_damaged_indexes() {
    let mut random = Random::seeded(23);
    let mut accepted = 0;
    for _ in 0..5_000 {
        let Delivery {
            dictionary,
            mut index,
        } = random_index(&mut random);
        for _ in 0..random.within(1, 3) {
            IndexDamage::ShiftPosition.apply(&mut index, &mut random);
        }
        accepted += usize::from(tally(&dictionary, &index).is_ok());
    }
    assert!(accepted >= 500, "only {accepted}");
}

/// The index is tested with the dictionary lent, whichever it was built with.
#[test]
fn indexes_with_another_dictionary() {
    let mut random = Random::seeded(24);
    let mut accepted = 0;
    for _ in 0..3_000 {
        let Delivery {
            mut dictionary,
            index,
        } = random_index(&mut random);
        for _ in 0..random.within(1, 3) {
            if let Some(number) = dictionary.lengths.len().checked_sub(1) {
                dictionary.remove(random.within(0, number));
            }
        }
        accepted += usize::from(tally(&dictionary, &index).is_ok());
    }
    assert!((300..2_700).contains(&accepted), "{accepted}");
}

/// Every slice of up to eight numbers out of 0 to 2.
#[test]
fn every_small_slice() {
    let words = Dictionary::of([vec![0], vec![2, 2]]);
    let mut accepted = 0;
    for index in all_lists(&[0, 1, 2], 8) {
        accepted += usize::from(tally(&words, &index).is_ok());
    }
    assert!(accepted >= 15, "only {accepted}");
}
