//! The first position at each of its limits. Every answer is written out from
//! the definition, and is also the one that the oracle gives.

use crate::support::delivery::{Delivery, delivery};
use crate::support::dictionary::Dictionary;
use crate::support::entries::starting_up_to;
use crate::support::first::first;
use crate::support::oracle::{Key, numbers};
use crate::support::searching::for_good_and_refused;
use crate::support::text::{Subject, spelt};

/// The string is first found at this position, and so says the whole search.
#[track_caller]
fn is_first_at(delivery: &Delivery, string: &[u16], position: u16) {
    gives(delivery, string, Some(position));
}

/// The string is found nowhere, and so says the whole search.
#[track_caller]
fn is_nowhere(delivery: &Delivery, string: &[u16]) {
    gives(delivery, string, None);
}

#[track_caller]
fn gives(delivery: &Delivery, string: &[u16], position: Option<u16>) {
    let Delivery { dictionary, index } = delivery;
    assert_eq!(first(dictionary, index, string), Ok(position));
    let found = mopekihua::search(&dictionary.chars, &dictionary.lengths, index, string);
    assert_eq!(found.map(|found| found.first().copied()), Ok(position));
}

#[test]
fn examples_of_the_definition() {
    let abcdab = delivery("ab abc bcd", "abcdab");
    is_first_at(&abcdab, &spelt("ab"), 1);
    is_first_at(&abcdab, &spelt("cda"), 3);
    is_first_at(&abcdab, &spelt("abcdab"), 1);
    is_nowhere(&abcdab, &spelt("x"));
    is_nowhere(&abcdab, &spelt("abcdabc"));
    is_first_at(&delivery("a aa aaa", "aaaa"), &spelt("aa"), 1);
    is_nowhere(&delivery("ab abc bcd", ""), &spelt("a"));
}

#[test]
fn at_each_start() {
    let text = delivery("bc cde", "abcdefg");
    for (start, position) in (0..7).zip(1..) {
        for end in start + 1..=7 {
            is_first_at(&text, &spelt(&"abcdefg"[start..end]), position);
        }
        let over_the_end = ["abcdefg", "x"].concat();
        is_nowhere(&text, &spelt(&over_the_end[start..]));
    }
}

/// The keys are in another order than their positions.
#[test]
fn the_first_key_need_not_come_first() {
    is_first_at(&delivery("ab abc", "xabcyab"), &spelt("ab"), 2);
    is_first_at(&delivery("ab b", "bxab"), &spelt("b"), 1);
    is_first_at(&delivery("ab b", "xabb"), &spelt("b"), 3);
    is_first_at(&delivery("xab", "bbxab"), &spelt("b"), 1);
}

/// Entries agree with the string before it is found.
#[test]
fn agreement_is_not_enough() {
    is_first_at(&delivery("ab bc", "abxbcabc"), &spelt("abc"), 6);
    is_first_at(&delivery("abc bcd", "abcxbcdabcd"), &spelt("abcd"), 8);
    is_first_at(&delivery("", "aababc"), &spelt("abc"), 4);
    is_nowhere(&delivery("ab bc", "abxbc"), &spelt("abc"));
}

#[test]
fn within_a_word() {
    is_first_at(&delivery("xaby", "zxaby"), &spelt("ab"), 3);
    is_first_at(&delivery("abab", "zabab"), &spelt("ab"), 2);
    is_first_at(&delivery("abab", "zabab"), &spelt("bab"), 3);
    let word = "abcdefghijklmnopqrstuvwxyz012345";
    for start in 0..32 {
        let delivery = delivery(word, &format!("AB{word}"));
        is_first_at(&delivery, &spelt(&word[start..]), start as u16 + 3);
    }
}

#[test]
fn entries_are_joined_where_they_overlap_and_where_they_touch() {
    is_first_at(&delivery("ab cd", "xabcd"), &spelt("abcd"), 2);
    is_first_at(&delivery("abcd cdef", "abcdef"), &spelt("bcde"), 2);
    is_first_at(&delivery("ab bcd de", "zabcde"), &spelt("abcde"), 2);
    is_first_at(&delivery("", "zabc"), &spelt("abc"), 2);
}

#[test]
fn a_string_longer_than_the_text() {
    is_nowhere(&delivery("a", "a"), &spelt("aa"));
    is_nowhere(&delivery("a", "a"), &[0x61; 256]);
    is_nowhere(&delivery("a aa", &"a".repeat(255)), &[0x61; 256]);
    is_first_at(&delivery("a aa", &"a".repeat(256)), &[0x61; 256], 1);
    for n in [0, 1, 7, 65_535] {
        let (dictionary, index) = (Dictionary::default(), numbers(n, &[]));
        is_nowhere(&Delivery { dictionary, index }, &spelt("a"));
    }
}

#[test]
fn a_string_has_1_to_256_characters() {
    let text = Subject {
        dictionary: Dictionary::spelt("a aa aaa b bb"),
        text: [[0x61; 44].as_slice(), &[0x62; 256]].concat(),
    };
    let delivery = Delivery::of_text(&text);
    is_first_at(&delivery, &[0x61], 1);
    is_first_at(&delivery, &[0x62], 45);
    is_first_at(&delivery, &[0x62; 255], 45);
    is_first_at(&delivery, &[0x62; 256], 45);
    is_first_at(&delivery, &text.text[43..299], 44);
    is_nowhere(&delivery, &[0x61; 256]);
    for length in [0, 257, 300, 65_536] {
        let string = vec![0x61; length];
        let answer = first(&delivery.dictionary, &delivery.index, &string);
        assert_eq!(answer, Err(6));
    }
}

#[test]
fn positions_that_no_entry_covers() {
    let lines = [(Key::Word(0), vec![1, 6]), (Key::Word(1), vec![4, 8])];
    let gaps = Delivery {
        dictionary: Dictionary::spelt("ab cd"),
        index: numbers(9, &lines),
    };
    is_first_at(&gaps, &spelt("ab"), 1);
    is_first_at(&gaps, &spelt("cd"), 4);
    is_first_at(&gaps, &spelt("abcd"), 6);
    is_first_at(&gaps, &spelt("bc"), 7);
    is_first_at(&gaps, &spelt("cdab"), 4);
    is_nowhere(&gaps, &spelt("dc"));
}

/// What covers each position need not be one text.
#[test]
fn entries_that_conflict() {
    let lines = [
        (Key::Word(0), vec![1, 2]),
        (Key::Lone(0x78), vec![1, 3]),
        (Key::Lone(0x79), vec![2, 4]),
    ];
    let conflict = Delivery {
        dictionary: Dictionary::spelt("ab"),
        index: numbers(4, &lines),
    };
    is_first_at(&conflict, &spelt("ab"), 1);
    is_first_at(&conflict, &spelt("xy"), 1);
    is_first_at(&conflict, &spelt("yx"), 2);
    is_first_at(&conflict, &spelt("by"), 3);
    is_first_at(&conflict, &spelt("xab"), 1);
    is_nowhere(&conflict, &spelt("ay"));
}

#[test]
fn the_longest_text() {
    let equal = Delivery::of_text(&Subject {
        dictionary: Dictionary::spelt("a aa aaa"),
        text: [&[0x61; 65_534][..], &[0x62]].concat(),
    });
    is_first_at(&equal, &[0x61; 256], 1);
    is_first_at(&equal, &spelt("b"), 65_535);
    is_first_at(&equal, &spelt("ab"), 65_534);
    is_nowhere(&equal, &spelt("ba"));
    let different = Delivery::of_text(&Subject {
        dictionary: Dictionary::default(),
        text: (0..65_535).collect(),
    });
    is_first_at(&different, &(1_000..1_256).collect::<Vec<_>>(), 1_001);
    is_first_at(&different, &[65_534], 65_535);
    is_nowhere(&different, &[65_535]);
}

#[test]
fn the_entries_that_start_later() {
    let abcdab = delivery("ab abc bcd", "abcdab");
    let less = [6, 2, 0, 1, 1, 0, 2, 1, 1, 2];
    assert_eq!(starting_up_to(&abcdab.index, 6), abcdab.index);
    assert_eq!(starting_up_to(&abcdab.index, 5), abcdab.index);
    assert_eq!(starting_up_to(&abcdab.index, 4), less);
    assert_eq!(starting_up_to(&abcdab.index, 2), less);
    assert_eq!(starting_up_to(&abcdab.index, 1), [6, 1, 0, 1, 1, 1]);
    assert_eq!(starting_up_to(&abcdab.index, 0), [6, 0]);
    let aabab = delivery("", "aabab");
    assert_eq!(aabab.index, [5, 2, 1, 97, 3, 1, 98, 2, 1, 2, 4, 3, 5]);
    let less = [5, 2, 1, 97, 2, 1, 98, 1, 1, 2, 3];
    assert_eq!(starting_up_to(&aabab.index, 3), less);

    // ab stands at 2, and no entry that it rests on starts after 3.
    let Delivery { dictionary, .. } = aabab;
    assert_eq!(first(&dictionary, &less, &spelt("ab")), Ok(Some(2)));
    let without_b = starting_up_to(&less, 2);
    assert_eq!(first(&dictionary, &without_b, &spelt("ab")), Ok(None));
}

#[test]
fn the_first_number_in_order_is_answered() {
    for_good_and_refused(|dictionary, index, string, refused| {
        let answer = first(dictionary, index, string);
        assert_eq!(answer, refused.map_or(Ok(Some(1)), Err));
    });
}
