//! Cut-down indexes of random ones against the definition; and a search of the
//! cut-down index finds what a search of the whole one does.

use crate::support::delivery::Delivery;
use crate::support::random::Random;
use crate::support::searching::{cut, search};
use crate::support::text::{Subject, in_either_width};

/// Cuts with an output just long enough and one short, and searches both.
fn try_out(delivery: &Delivery, string: &[u16]) {
    let Delivery { dictionary, index } = delivery;
    let less = cut(dictionary, index, string, index.len()).expect("a readable index");
    assert_eq!(
        cut(dictionary, index, string, less.len()).as_ref(),
        Ok(&less)
    );
    assert_eq!(cut(dictionary, index, string, less.len() - 1), Err(8));
    let n = usize::from(index[0]);
    let found = search(dictionary, index, string, n);
    assert_eq!(search(dictionary, &less, string, n), found);
    assert_eq!(
        cut(dictionary, &less, string, less.len()).as_ref(),
        Ok(&less)
    );
}

#[test]
fn indexes_of_texts() {
    let mut random = Random::seeded(41);
    for round in 0..1_000 {
        let subject = match round % 2 {
            0 => Subject::of_few_characters(&mut random, 60),
            _ => Subject::of_japanese(&mut random, 60),
        };
        if subject.text.is_empty() {
            continue;
        }
        let delivery = Delivery::of_text(&subject);
        for _ in 0..4 {
            let start = random.below(subject.text.len());
            let long = random.within(1, 6).min(subject.text.len() - start);
            let string = &subject.text[start..start + long];
            try_out(&delivery, &in_either_width(string, &mut random));
        }
    }
}

#[test]
fn words_that_share_their_first_characters() {
    let mut random = Random::seeded(43);
    for _ in 0..40 {
        let subject = Subject::crowded(&mut random, 400);
        let delivery = Delivery::of_text(&subject);
        for most in [3, 40, 256] {
            let start = random.below(subject.text.len());
            let long = random.within(1, most).min(subject.text.len() - start);
            try_out(&delivery, &subject.text[start..start + long]);
        }
    }
}

#[test]
fn readable_indexes_of_no_text() {
    let mut random = Random::seeded(42);
    for _ in 0..2_000 {
        let delivery = Delivery::random(&mut random);
        let length = random.one_of(&[1, 2, 3, 8, 40]);
        try_out(&delivery, &delivery.string(&mut random, length));
    }
}
