//! Full-width forms in words, which must come replaced: refusal 12, right after 3.
//! Every answer is written out from the definition, and is also the one that the
//! oracle gives.

use crate::support::admission::{answers, lent};
use crate::support::building::{Room, build};
use crate::support::dictionary::Dictionary;
use crate::support::first::first;
use crate::support::gaps::{from_gaps, to_gaps};
use crate::support::reading::tally;
use crate::support::reception::recover;
use crate::support::searching::{cut, search};
use crate::support::text::spelt;

#[test]
fn every_character_in_a_word() {
    for character in 0..=u16::MAX {
        let is_form = (0xFF01..=0xFF5E).contains(&character);
        let expected = if is_form { Err(12) } else { Ok(1) };
        answers(&Dictionary::of([[character]]), expected);
    }
}

#[test]
fn a_form_at_each_place_of_the_words() {
    let words = ["a", "ab", "abcdefghijklmnopqrstuvwxyzabcdef", "ac", "b"];
    let good = Dictionary::of(words.map(spelt));
    answers(&good, Ok(5));
    for number in 0..words.len() {
        for i in 0..words[number].len() {
            for form in [0xFF01, 0xFF41, 0xFF5E] {
                let mut word = spelt(words[number]);
                word[i] = form;
                let others = (0..words.len()).filter(|&other| other != number);
                let others = others.map(|other| spelt(words[other]));
                answers(&Dictionary::of_set(others.chain([word])), Err(12));
            }
        }
    }
}

/// As many words and as many characters as a dictionary can have.
#[test]
fn a_form_in_the_largest_dictionaries() {
    let mut many = Dictionary::of_single_characters(4096);
    answers(&many, Ok(4096));
    many.chars[4095] = 0xFF5E;
    answers(&many, Err(12));
    // Each word starts with its own number, and has FFFF after it.
    for i in [1, 31, 40_001, 65_534] {
        let mut long = Dictionary::of_total_length(65_535);
        answers(&long, Ok(2048));
        long.chars[i] = 0xFF01;
        answers(&long, Err(12));
    }
}

#[test]
fn refusal_1_comes_before_12() {
    let mut many = Dictionary::of_single_characters(4097);
    many.chars[4096] = 0xFF21;
    answers(&many, Err(1));
    let mut long = Dictionary::of_total_length(65_536);
    long.chars[65_535] = 0xFF21;
    answers(&long, Err(1));
    answers(&lent(&[0xFF21; 65_536], &[1]), Err(1));
    answers(&lent(&[0xFF21], &[1; 4097]), Err(1));
}

#[test]
fn refusal_2_comes_before_12() {
    answers(&lent(&[0xFF21; 33], &[33]), Err(2));
    answers(&lent(&[0xFF21], &[0, 1]), Err(2));
    answers(&lent(&[0xFF21], &[1, 0]), Err(2));
    answers(&lent(&[0xFF21], &[]), Err(2));
    answers(&lent(&[0xFF21], &[2]), Err(2));
    answers(&lent(&[0xFF21; 3], &[1, 1]), Err(2));
}

/// Wherever the words fall, and wherever the form stands.
#[test]
fn refusal_3_comes_before_12() {
    for words in [
        "ｂ ａ",
        "ａ ａ",
        "ａｂ ａ",
        "ａ a",
        "b a ａ",
        "ａ b a",
        "a ａ ａ",
        "a ｃ ｂ",
        "ｂ a",
        "aa ａ aa",
    ] {
        answers(&Dictionary::spelt(words), Err(3));
    }
    for words in ["ａ ｂ", "a ａ", "ａ ａａ", "a b ａ", "ａ ｱ", "aａ b"] {
        answers(&Dictionary::spelt(words), Err(12));
    }
}

/// Replaced they would ascend, or be equal: the order is that of the words as they
/// are lent.
#[test]
fn words_are_not_replaced_before_they_are_compared() {
    answers(&Dictionary::spelt("a ａ"), Err(12));
    answers(&Dictionary::spelt("b ａ"), Err(12));
    answers(&Dictionary::spelt("ａ b"), Err(3));
}

/// Output is as it was and work is cleared: what is called here looks at that.
#[test]
fn every_operation_refuses_a_form_in_a_word() {
    let words = Dictionary::spelt("ab ｂｃ");
    let text = spelt("abc");
    let index = [3, 2, 0, 0, 1, 0, 1, 1, 1, 2];
    let ample = Room::ample(3);
    answers(&words, Err(12));
    assert_eq!(build(&words, &text, ample), Err(12));
    assert_eq!(tally(&words, &index), Err(12));
    assert_eq!(recover(&words, &index, ample), Err(12));
    assert_eq!(search(&words, &index, &text, 3), Err(12));
    assert_eq!(first(&words, &index, &text), Err(12));
    assert_eq!(cut(&words, &index, &text, 10), Err(12));
    assert_eq!(to_gaps(&words, &index, 10), Err(12));
    assert_eq!(from_gaps(&words, &index, 10), Err(12));
}

/// Everything else that is lent is wrong too.
#[test]
fn refusal_12_comes_before_all_that_follow_3() {
    let words = Dictionary::spelt("ab ｂｃ");
    let nothing = Room { output: 0, work: 0 };
    let some = Room { output: 0, work: 9 };
    for room in [nothing, some, Room::ample(65_536)] {
        assert_eq!(build(&words, &[0x61; 65_536], room), Err(12));
        assert_eq!(build(&words, &[0x61; 9], room), Err(12));
        for index in [&[][..], &[3], &[3, 1, 2, 0, 1, 1], &[9, 0], &[0xFFFF, 0]] {
            assert_eq!(recover(&words, index, room), Err(12));
        }
    }
    for index in [&[][..], &[3], &[3, 1, 2, 0, 1, 1], &[9, 0]] {
        assert_eq!(tally(&words, index), Err(12));
        assert_eq!(to_gaps(&words, index, 0), Err(12));
        assert_eq!(from_gaps(&words, index, 0), Err(12));
        for string in [&[][..], &[0x61; 257], &[0xFF41]] {
            assert_eq!(search(&words, index, string, 0), Err(12));
            assert_eq!(first(&words, index, string), Err(12));
            assert_eq!(cut(&words, index, string, 0), Err(12));
        }
    }
}
