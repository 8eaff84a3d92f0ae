//! The cut-down index at each of its limits. Every answer is written out from
//! the definition, and is also the one that the oracle gives.

use crate::support::dictionary::Dictionary;
use crate::support::oracle::{Key, Line, numbers};
use crate::support::searching::{assert_first_number, cut};
use crate::support::text::spelt;

/// Which of these words and lone characters bear on the string: all stand at 1
/// in an index that no text need have.
#[track_caller]
fn bear(words: &str, lone: &str, string: &str, expected: &str) {
    let dictionary = Dictionary::spelt(words);
    let is_kept = |spelt: &str| expected.split_whitespace().any(|kept| kept == spelt);
    let mut lines: Vec<Line> = Vec::new();
    let mut kept: Vec<Line> = Vec::new();
    let keys = words.split_whitespace().zip((0..).map(Key::Word)).chain(
        lone.split_whitespace()
            .map(|lone| (lone, Key::Lone(spelt(lone)[0]))),
    );
    for (spelt, key) in keys {
        lines.push((key, vec![1, 3]));
        if is_kept(spelt) {
            kept.push((key, vec![1, 3]));
        }
    }
    let (index, kept) = (numbers(50, &lines), numbers(50, &kept));
    for output_len in [kept.len(), index.len() + 3] {
        let answer = cut(&dictionary, &index, &spelt(string), output_len);
        assert_eq!(answer.as_ref(), Ok(&kept));
    }
    let short = cut(&dictionary, &index, &spelt(string), kept.len() - 1);
    assert_eq!(short, Err(8));
    let owned = mopekihua::cut(
        &dictionary.chars,
        &dictionary.lengths,
        &index,
        &spelt(string),
    );
    assert_eq!(owned, Ok(kept));
}

#[test]
fn examples_of_the_definition() {
    bear("ab abc bcd", "", "dd", "bcd");
    bear("ab abc bcd", "", "x", "");
    bear("ab abc bcd", "", "bc", "ab abc bcd");
}

#[test]
fn a_key_that_contains_the_string() {
    bear("xaby xay", "", "ab", "xaby");
    bear("ab abx xab", "", "ab", "ab abx xab");
}

#[test]
fn a_key_that_the_string_contains() {
    bear("b bc cb", "a x", "abcd", "b bc a");
    bear("b bc cb", "d e", "abcd", "b bc d");
}

#[test]
fn a_key_that_ends_in_a_start_of_the_string() {
    bear("xa xab xabc xb xbc", "", "abd", "xa xab");
}

#[test]
fn a_key_that_starts_with_an_end_of_the_string() {
    bear("ax bcx bx cx dx", "", "abc", "bcx cx");
}

#[test]
fn nothing_else_bears() {
    bear("xbcx xbdx", "x", "abcd", "");
    bear("ba ca", "b", "ac", "ba ca");
}

#[test]
fn the_empty_index() {
    let words = Dictionary::spelt("ab abc bcd");
    assert_eq!(cut(&words, &[0, 0], &spelt("a"), 2), Ok(vec![0, 0]));
    assert_eq!(cut(&words, &[7, 0], &spelt("a"), 2), Ok(vec![7, 0]));
    assert_eq!(cut(&words, &[7, 0], &spelt("a"), 1), Err(8));
    assert_eq!(cut(&words, &[7, 0], &spelt("a"), 0), Err(8));
}

#[test]
fn a_string_has_1_to_256_characters() {
    let words = Dictionary::spelt("a aa aaa");
    let index = [9, 1, 0, 2, 2, 1, 7];
    for length in [1, 2, 255, 256] {
        let answer = cut(&words, &index, &vec![0x61; length], 7);
        assert_eq!(answer.as_deref(), Ok(&index[..]));
    }
    for length in [0, 257, 65_536] {
        assert_eq!(cut(&words, &index, &vec![0x61; length], 7), Err(6));
    }
}

/// All positions stay with their key, more of them than a text has.
#[test]
fn more_than_65535_entries() {
    let all: Vec<u16> = (1..=65_535).collect();
    let line = |character: u16| (Key::Lone(character), all.clone());
    let words = Dictionary::spelt("ab");
    let index = numbers(65_535, &[line(0x61), line(0x62), line(0x63)]);
    let kept = numbers(65_535, &[line(0x61), line(0x63)]);
    let answer = cut(&words, &index, &spelt("axc"), kept.len());
    assert!(answer == Ok(kept));
}

#[test]
fn the_first_number_in_order_is_answered() {
    assert_first_number(cut, 14);
}
