//! Search at each of its limits. Every answer is written out from the
//! definition, and is also the one that the oracle gives.

use crate::support::delivery::{Delivery, delivery};
use crate::support::dictionary::Dictionary;
use crate::support::oracle::{Key, numbers};
use crate::support::searching::{assert_first_number, search};
use crate::support::text::{Subject, spelt};

/// These positions are found, in an output just as long, in a longer one, and
/// by the call that allocates; an output one short is refused.
#[track_caller]
fn finds(delivery: &Delivery, string: &[u16], positions: &[u16]) {
    let Delivery { dictionary, index } = delivery;
    for output_len in [positions.len(), positions.len() + 3] {
        let found = search(dictionary, index, string, output_len);
        assert_eq!(found.as_deref(), Ok(positions));
    }
    if let Some(short) = positions.len().checked_sub(1) {
        assert_eq!(search(dictionary, index, string, short), Err(8));
    }
    let owned = mopekihua::search(&dictionary.chars, &dictionary.lengths, index, string);
    assert_eq!(owned.as_deref(), Ok(positions));
}

#[test]
fn examples_of_the_definition() {
    let abcdab = delivery("ab abc bcd", "abcdab");
    finds(&abcdab, &spelt("ab"), &[1, 5]);
    finds(&abcdab, &spelt("cda"), &[3]);
    finds(&abcdab, &spelt("x"), &[]);
    finds(&abcdab, &spelt("abcdab"), &[1]);
    finds(&abcdab, &spelt("abcdabc"), &[]);
    finds(&delivery("ab abc bcd", ""), &spelt("a"), &[]);
    finds(&delivery("ab abc bcd", ""), &spelt("abc"), &[]);
}

/// Two entries show aa at 2; it is found once.
#[test]
fn a_position_is_found_once() {
    finds(&delivery("a aa aaa", "aaaa"), &spelt("aa"), &[1, 2, 3]);
    finds(&delivery("a aa aaa", "aaaa"), &spelt("a"), &[1, 2, 3, 4]);
    finds(&delivery("a aa aaa", "aaaa"), &spelt("aaaa"), &[1]);
}

#[test]
fn a_word_may_hold_the_string_several_times() {
    finds(&delivery("abab", "abab"), &spelt("ab"), &[1, 3]);
    finds(&delivery("aaaa", "aaaa"), &spelt("aa"), &[1, 2, 3]);
    finds(&delivery("ababab", "xabababy"), &spelt("b"), &[3, 5, 7]);
}

#[test]
fn entries_are_joined_where_they_overlap_and_where_they_touch() {
    finds(&delivery("ab abc bcd", "abcd"), &spelt("abcd"), &[1]);
    finds(&delivery("ab cd", "abcd"), &spelt("abcd"), &[1]);
    finds(&delivery("abcd cdef", "abcdef"), &spelt("bcde"), &[2]);
    finds(&delivery("ab bcd de", "abcde"), &spelt("abcde"), &[1]);
    finds(&delivery("", "abcab"), &spelt("ab"), &[1, 4]);
}

#[test]
fn every_position_of_the_string_must_be_covered() {
    let dictionary = Dictionary::spelt("ab de");
    let gap = Delivery {
        index: numbers(5, &[(Key::Word(0), vec![1]), (Key::Word(1), vec![4])]),
        dictionary,
    };
    finds(&gap, &spelt("ab"), &[1]);
    finds(&gap, &spelt("de"), &[4]);
    finds(&gap, &spelt("abcde"), &[]);
    finds(&gap, &spelt("bcd"), &[]);
    finds(&gap, &spelt("abc"), &[]);
    finds(&gap, &spelt("cde"), &[]);
}

/// What covers each position need not be one text: two strings are found at one
/// position, and an entry that disagrees anywhere covers nothing.
#[test]
fn entries_that_conflict() {
    let lines = [
        (Key::Word(0), vec![1]),
        (Key::Lone(0x78), vec![1]),
        (Key::Lone(0x79), vec![2]),
    ];
    let conflict = Delivery {
        dictionary: Dictionary::spelt("ab"),
        index: numbers(2, &lines),
    };
    finds(&conflict, &spelt("ab"), &[1]);
    finds(&conflict, &spelt("xy"), &[1]);
    finds(&conflict, &spelt("xb"), &[]);
    finds(&conflict, &spelt("ay"), &[]);
    finds(&conflict, &spelt("a"), &[1]);
    finds(&conflict, &spelt("b"), &[2]);
    finds(&conflict, &spelt("x"), &[1]);
}

/// A shorter entry that starts later may reach less far: what is covered is
/// what any entry covers.
#[test]
fn entries_within_each_other() {
    let lines = [
        (Key::Word(0), vec![1]),
        (Key::Word(1), vec![2]),
        (Key::Lone(0x65), vec![5]),
    ];
    let nested = Delivery {
        dictionary: Dictionary::spelt("abcd bc"),
        index: numbers(5, &lines),
    };
    finds(&nested, &spelt("abcde"), &[1]);
    finds(&nested, &spelt("bc"), &[2]);
    finds(&nested, &spelt("cde"), &[3]);
}

#[test]
fn the_string_ends_at_or_before_n() {
    let abcdab = delivery("ab abc bcd", "abcdab");
    finds(&abcdab, &spelt("b"), &[2, 6]);
    finds(&abcdab, &spelt("bc"), &[2]);
    finds(&abcdab, &spelt("abc"), &[1]);
    finds(&delivery("a", "a"), &spelt("a"), &[1]);
    finds(&delivery("a", "a"), &spelt("aa"), &[]);
    finds(&delivery("a", "a"), &[0x61; 256], &[]);
}

#[test]
fn a_string_has_1_to_256_characters() {
    let text = Subject {
        dictionary: Dictionary::spelt("a aa aaa"),
        text: vec![0x61; 300],
    };
    let equal = Delivery::of_text(&text);
    finds(&equal, &[0x61; 1], &(1..=300).collect::<Vec<_>>());
    finds(&equal, &[0x61; 255], &(1..=46).collect::<Vec<_>>());
    finds(&equal, &[0x61; 256], &(1..=45).collect::<Vec<_>>());
    for length in [0, 257, 300, 65_536] {
        for output_len in [0, 300] {
            let string = vec![0x61; length];
            let answer = search(&equal.dictionary, &equal.index, &string, output_len);
            assert_eq!(answer, Err(6));
        }
    }
}

#[test]
fn the_longest_text() {
    let text = Subject {
        dictionary: Dictionary::spelt("a aa aaa"),
        text: vec![0x61; 65_535],
    };
    let equal = Delivery::of_text(&text);
    finds(&equal, &[0x61; 2], &(1..=65_534).collect::<Vec<_>>());
    finds(&equal, &[0x61; 1], &(1..=65_535).collect::<Vec<_>>());
    let different = Delivery::of_text(&Subject {
        dictionary: Dictionary::default(),
        text: (0..65_535).collect(),
    });
    finds(&different, &(1_000..1_256).collect::<Vec<_>>(), &[1_001]);
    finds(&different, &[65_533, 65_534], &[65_534]);
    finds(&different, &[65_534, 65_535], &[]);
}

#[test]
fn the_first_number_in_order_is_answered() {
    assert_first_number(search, 2);
}
