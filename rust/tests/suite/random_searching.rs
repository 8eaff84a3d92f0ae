//! Search of random indexes: of texts against a search of the text, and of
//! readable indexes of no text against the definition.

use crate::support::delivery::Delivery;
use crate::support::index_damage::IndexDamage;
use crate::support::lists::all_lists;
use crate::support::oracle;
use crate::support::random::Random;
use crate::support::searching::{assert_finds, search};
use crate::support::text::{Subject, in_either_width};

/// A string that stands in the text, in either width, or one that differs from
/// such a one in a character.
fn string_near(text: &[u16], random: &mut Random) -> Vec<u16> {
    let most = random.one_of(&[1, 2, 3, 5, 12, 40, 256]);
    let start = random.below(text.len());
    let long = random.within(1, most).min(text.len() - start);
    let mut string = text[start..start + long].to_vec();
    if random.within(0, 2) == 0 {
        let i = random.below(string.len());
        string[i] = text[random.below(text.len())];
    }
    if random.within(0, 9) == 0 {
        string.push(text[0]);
    }
    string.truncate(256);
    in_either_width(&string, random)
}

/// The index of the text finds what stands in the text, for several strings.
fn compare_with_text(subject: &Subject, random: &mut Random) {
    let Delivery { dictionary, index } = Delivery::of_text(subject);
    for _ in 0..8 {
        let string = string_near(&subject.text, random);
        let positions = oracle::positions_in_text(&subject.text, &string);
        let output_len = positions.len() + random.within(0, 3);
        assert_finds(&dictionary, &index, &string, output_len, Ok(&positions));
        if let Some(short) = positions.len().checked_sub(1) {
            assert_finds(&dictionary, &index, &string, short, Err(8));
        }
    }
}

#[test]
fn texts_of_few_characters() {
    let mut random = Random::seeded(31);
    for _ in 0..1_500 {
        let subject = Subject::of_few_characters(&mut random, 150);
        if !subject.text.is_empty() {
            compare_with_text(&subject, &mut random);
        }
    }
}

#[test]
fn texts_of_japanese() {
    let mut random = Random::seeded(32);
    for _ in 0..800 {
        let subject = Subject::of_japanese(&mut random, 600);
        compare_with_text(&subject, &mut random);
    }
}

#[test]
fn words_that_share_their_first_characters() {
    let mut random = Random::seeded(33);
    for _ in 0..60 {
        let subject = Subject::crowded(&mut random, 1_500);
        compare_with_text(&subject, &mut random);
    }
}

#[test]
fn long_texts() {
    let mut random = Random::seeded(34);
    for _ in 0..4 {
        let subject = Subject::of_longest_text(&mut random);
        compare_with_text(&subject, &mut random);
    }
}

#[test]
fn readable_indexes_of_no_text() {
    let mut random = Random::seeded(35);
    let mut found = 0;
    for _ in 0..4_000 {
        let delivery = Delivery::random(&mut random);
        let Delivery { dictionary, index } = &delivery;
        for _ in 0..6 {
            let length = random.within(1, 8);
            let string = delivery.string(&mut random, length);
            let positions = search(dictionary, index, &string, 24).expect("a readable index");
            found += usize::from(!positions.is_empty());
        }
    }
    assert!(found >= 4_000, "only {found}");
}

/// Every string of up to five characters out of two, of which one comes in both
/// widths.
#[test]
fn every_small_string() {
    let mut random = Random::seeded(36);
    let strings = all_lists(&[0x61, 0x62, 0xFF41], 5);
    for _ in 0..300 {
        let Delivery { dictionary, index } = small_delivery(&mut random);
        for string in &strings {
            let answer = search(&dictionary, &index, string, 24);
            assert_eq!(answer.is_err(), string.is_empty());
        }
    }
}

/// A readable index over the characters a and b.
fn small_delivery(random: &mut Random) -> Delivery {
    loop {
        let delivery = Delivery::random(random);
        let small = |&character: &u16| character == 0x61 || character == 0x62;
        if delivery.dictionary.chars.iter().all(small) {
            return delivery;
        }
    }
}

#[test]
fn damaged_indexes() {
    let mut random = Random::seeded(37);
    let mut refused = 0;
    for _ in 0..3_000 {
        let subject = Subject::of_few_characters(&mut random, 40);
        if subject.text.is_empty() {
            continue;
        }
        let Delivery {
            dictionary,
            mut index,
        } = Delivery::of_text(&subject);
        random
            .one_of(&IndexDamage::ALL)
            .apply(&mut index, &mut random);
        let string = string_near(&subject.text, &mut random);
        let output_len = random.within(0, 10);
        refused += usize::from(search(&dictionary, &index, &string, output_len) == Err(5));
    }
    assert!(refused >= 800, "only {refused}");
}
