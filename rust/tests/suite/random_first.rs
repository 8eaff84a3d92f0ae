//! First positions in random readable indexes, most of which no text has. Those
//! in indexes of texts are compared where these are searched.

use crate::support::delivery::Delivery;
use crate::support::dictionary::Dictionary;
use crate::support::entries::{Entry, keys, numbers};
use crate::support::first::{assert_first, first};
use crate::support::oracle;
use crate::support::random::Random;

/// The entries of a delivery.
fn entries(Delivery { dictionary, index }: &Delivery) -> Vec<Entry> {
    let Ok(opened) = oracle::open(&dictionary.chars, &dictionary.lengths, index) else {
        panic!("an index that is not readable");
    };
    let mut entries = Vec::new();
    for (key, positions) in opened.lines {
        entries.extend(positions.into_iter().map(|position| (key, position)));
    }
    entries
}

/// The same n and the same entries up to a position, and after it others drawn
/// at random.
fn with_other_later_entries(delivery: &Delivery, last: u16, random: &mut Random) -> Vec<u16> {
    let Dictionary { chars, lengths } = &delivery.dictionary;
    let words = oracle::split(chars, lengths);
    let n = delivery.index[0];
    let mut kept = entries(delivery);
    kept.retain(|&(_, position)| position <= last);
    for key in keys(&words, &[&chars[..], &[0x61, 0xFF41]].concat()) {
        let last_start = (n + 1).saturating_sub(key.spells(&words).len() as u16);
        let later = (last + 1..=last_start).filter(|_| random.within(0, 2) == 0);
        kept.extend(later.map(|position| (key, position)));
    }
    numbers(n, kept)
}

#[test]
fn entries_that_start_later_do_not_matter() {
    let mut random = Random::seeded(95);
    let mut found = 0;
    for _ in 0..4_000 {
        let delivery = Delivery::random(&mut random);
        for _ in 0..4 {
            let length = random.within(1, 8);
            let string = delivery.string(&mut random, length);
            let Ok(Some(position)) = first(&delivery.dictionary, &delivery.index, &string) else {
                continue;
            };
            let end = position + string.len() as u16 - 1;
            let other = with_other_later_entries(&delivery, end, &mut random);
            let again = first(&delivery.dictionary, &other, &string);
            assert_eq!(again, Ok(Some(position)));
            found += usize::from(other != delivery.index);
        }
    }
    assert!(found >= 2_000, "only {found}");
}

/// Where positions are put in front that no entry covers, what is found moves by
/// as many. The library searches the first 8,192 starts, and then the rest, and
/// has a smaller table for 1,024: it moves to around these, and as far as
/// positions go.
#[test]
fn indexes_that_are_moved() {
    let mut random = Random::seeded(96);
    let mut found = [0; 4];
    for _ in 0..4_000 {
        let delivery = Delivery::random(&mut random);
        let Delivery { dictionary, index } = &delivery;
        for most in [1_024, 8_192, 65_535 - 24] {
            let by = most - random.within(0, 6) as u16;
            let moved = delivery.clone().moved(by);
            let length = random.within(1, 8);
            let string = delivery.string(&mut random, length);
            let expected = oracle::first(dictionary, index, &string);
            let expected = expected.map(|first| first.map(|position| position + by));
            assert_first(dictionary, &moved.index, &string, expected);
            let window = match expected.expect("a readable index") {
                Some(..=1_024) => 0,
                Some(..=8_192) => 1,
                Some(_) => 2,
                None => 3,
            };
            found[window] += 1;
        }
    }
    assert!(found.iter().all(|&count| count >= 500), "{found:?}");
}
