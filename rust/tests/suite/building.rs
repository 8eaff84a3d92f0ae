//! Building at each of its limits. Every answer is written out from the
//! definition, and is also the one that the oracle gives.

use crate::support::building::{Room, build};
use crate::support::dictionary::Dictionary;
use crate::support::text::{every_replaced_character, spelt};

/// The index of a text, with exactly as much lent as it takes and with more.
#[track_caller]
fn has_index(words: &str, text: &str, index: &[u16]) {
    let dictionary = Dictionary::spelt(words);
    let text = spelt(text);
    let exact = Room {
        output: index.len(),
        work: 8 * text.len(),
    };
    for room in [exact, Room::ample(text.len())] {
        assert_eq!(build(&dictionary, &text, room).as_deref(), Ok(index));
    }
    let owned = mopekihua::build(&dictionary.chars, &dictionary.lengths, &text);
    assert_eq!(owned.as_deref(), Ok(index));
}

#[track_caller]
fn refuses(dictionary: &Dictionary, text: &[u16], room: Room, number: u32) {
    assert_eq!(build(dictionary, text, room), Err(number));
}

#[test]
fn examples_of_the_definition() {
    has_index(
        "ab abc bcd",
        "abcdab",
        &[6, 3, 0, 0, 1, 0, 1, 1, 0, 2, 1, 5, 1, 2],
    );
    has_index("ab abc bcd", "axa", &[3, 2, 1, 97, 2, 1, 120, 1, 1, 3, 2]);
    has_index("ab abc bcd", "", &[0, 0]);
    has_index("a aa aaa", "aaaa", &[4, 1, 0, 2, 2, 1, 2]);
}

/// An entry that ends where the one before it ends lies within it.
#[test]
fn an_equal_end_is_not_registered() {
    has_index("bcd", "bcd", &[3, 1, 0, 0, 1, 1]);
    has_index("bcd d", "bcd", &[3, 1, 0, 0, 1, 1]);
    has_index("bcd cd", "bcd", &[3, 1, 0, 0, 1, 1]);
    has_index("bcd cde", "bcde", &[4, 2, 0, 0, 1, 0, 1, 1, 1, 2]);
}

#[test]
fn words_are_registered_after_the_first_one() {
    has_index("ab cd", "abcd", &[4, 2, 0, 0, 1, 0, 1, 1, 1, 3]);
    has_index("ab cd", "ababab", &[6, 1, 0, 0, 3, 1, 3, 5]);
    has_index("ab cd", "xcd", &[3, 2, 0, 1, 1, 1, 120, 1, 2, 1]);
}

#[test]
fn the_longest_word_is_registered() {
    has_index("a ab abc", "abc", &[3, 1, 0, 2, 1, 1]);
    has_index("a ab abc", "abab", &[4, 1, 0, 1, 2, 1, 3]);
    has_index(
        "a abcd",
        "abcab",
        &[5, 3, 0, 0, 2, 1, 98, 2, 1, 99, 1, 1, 4, 2, 5, 3],
    );
}

/// A longer word that starts later is registered beside the earlier one.
#[test]
fn words_overlap() {
    has_index("ab bc", "abc", &[3, 2, 0, 0, 1, 0, 1, 1, 1, 2]);
    has_index("ab bcde", "abcde", &[5, 2, 0, 0, 1, 0, 1, 1, 1, 2]);
    has_index("aba", "ababa", &[5, 1, 0, 0, 2, 1, 3]);
}

#[test]
fn a_character_that_is_a_word_is_no_lone_key() {
    has_index("a", "aba", &[3, 2, 0, 0, 2, 1, 98, 1, 1, 3, 2]);
    has_index("b", "aba", &[3, 2, 0, 0, 1, 1, 97, 2, 2, 1, 3]);
}

#[test]
fn a_word_that_the_text_ends_within_does_not_stand() {
    has_index("abc", "ab", &[2, 2, 1, 97, 1, 1, 98, 1, 1, 2]);
    has_index("ab abc", "xab", &[3, 2, 0, 0, 1, 1, 120, 1, 2, 1]);
}

#[test]
fn without_words_every_character_is_lone() {
    has_index("", "aba", &[3, 2, 1, 97, 2, 1, 98, 1, 1, 3, 2]);
    has_index("", "図面", &[2, 2, 1, 0x56F3, 1, 1, 0x9762, 1, 1, 2]);
}

#[test]
fn the_least_and_the_greatest_character() {
    let text = [0xFFFF, 0x0000, 0xFFFF];
    let alone = build(&Dictionary::default(), &text, Room::ample(3));
    assert_eq!(alone, Ok(vec![3, 2, 1, 0, 1, 1, 0xFFFF, 2, 2, 1, 3]));
    let words = Dictionary::of([&[0][..], &[0xFFFF, 0xFFFF]]);
    let beside = build(&words, &[0xFFFF, 0xFFFF, 0, 0xFFFF], Room::ample(4));
    assert_eq!(
        beside,
        Ok(vec![4, 3, 0, 0, 1, 0, 1, 1, 1, 0xFFFF, 1, 3, 1, 4])
    );
}

#[test]
fn a_word_of_32_characters() {
    let word: Vec<u16> = (1..=32).collect();
    let dictionary = Dictionary::of([&word[..31], &word[..]]);
    let stands = build(&dictionary, &word, Room::ample(32));
    assert_eq!(stands, Ok(vec![32, 1, 0, 1, 1, 1]));
    let cut = build(&dictionary, &word[..31], Room::ample(31));
    assert_eq!(cut, Ok(vec![31, 1, 0, 0, 1, 1]));
}

#[test]
fn a_dictionary_of_4096_words() {
    let dictionary = Dictionary::of_single_characters(4096);
    let index = build(&dictionary, &[4095, 4096, 0], Room::ample(3));
    assert_eq!(
        index,
        Ok(vec![3, 3, 0, 0, 1, 0, 4095, 1, 1, 4096, 1, 3, 1, 2])
    );
}

#[test]
fn a_text_of_65535_characters() {
    let equal = [97; 65_536];
    let words = Dictionary::spelt("a aa aaa");
    let index = build(&words, &equal[..65_535], Room::ample(65_535)).unwrap();
    assert_eq!(index[..5], [65_535, 1, 0, 2, 65_533]);
    assert!(index[5..].iter().copied().eq(1..=65_533));
    refuses(&words, &equal, Room::ample(65_536), 4);
    let owned = mopekihua::build(&words.chars, &words.lengths, &equal);
    assert_eq!(owned, Err(mopekihua::Refusal::TextTooLong));
}

/// The most lone keys that an index of a text has: every character of replaced
/// texts once.
#[test]
fn an_index_of_65442_lone_keys() {
    let text = every_replaced_character();
    let longest = mopekihua::index_bound(65_442);
    let room = Room {
        output: longest,
        work: 8 * 65_442,
    };
    let index = build(&Dictionary::default(), &text, room).unwrap();
    assert_eq!(index.len(), longest);
    assert_eq!(index[..8], [65_442, 65_442, 1, 0, 1, 1, 1, 1]);
    assert_eq!(index[longest - 3..], [3, 2, 1]);
    let short = Room {
        output: longest - 1,
        ..room
    };
    refuses(&Dictionary::default(), &text, short, 8);
}

#[test]
fn work_of_8n_is_enough_and_one_less_is_not() {
    let words = Dictionary::spelt("ab abc bcd");
    for n in [1, 2, 3, 60, 8191, 8192, 65_535] {
        let text = vec![98; n];
        let ample = Room::ample(n);
        for work in [8 * n, 8 * n + 1] {
            assert!(build(&words, &text, Room { work, ..ample }).is_ok());
        }
        for work in [8 * n - 1, 8 * n - 8, n, 1, 0] {
            if work < 8 * n {
                refuses(&words, &text, Room { work, ..ample }, 7);
            }
        }
    }
}

#[test]
fn the_empty_text_needs_no_work_space() {
    let words = Dictionary::spelt("ab abc bcd");
    for work in [0, 1, 100] {
        let room = Room { output: 2, work };
        assert_eq!(build(&words, &[], room), Ok(vec![0, 0]));
        refuses(&words, &[], Room { output: 1, work }, 8);
        refuses(&words, &[], Room { output: 0, work }, 8);
    }
}

#[test]
fn an_output_one_short_is_refused_and_untouched() {
    let words = Dictionary::spelt("ab abc bcd");
    for (text, size) in [("abcdab", 14), ("axa", 11), ("", 2), ("abababab", 9)] {
        let text = spelt(text);
        let work = 8 * text.len();
        let exact = Room { output: size, work };
        assert_eq!(
            build(&words, &text, exact).map(|index| index.len()),
            Ok(size)
        );
        for output in 0..size {
            refuses(&words, &text, Room { output, work }, 8);
        }
    }
}

/// The work slice is cleared over its whole length, also past 8n and also where
/// the dictionary or the text is refused; `build` looks at that.
#[test]
fn every_refusal_clears_a_long_work_slice() {
    let good = Dictionary::spelt("ab abc bcd");
    let text = spelt("abcdab");
    let room = Room {
        output: 20,
        work: 1000,
    };
    refuses(&Dictionary::of_single_characters(4097), &text, room, 1);
    refuses(&Dictionary::of([[7; 33]]), &text, room, 2);
    refuses(&Dictionary::spelt("b a"), &text, room, 3);
    refuses(&Dictionary::spelt("ａ"), &text, room, 12);
    refuses(&good, &[97; 65_536], room, 4);
    refuses(&good, &[97; 1000], room, 7);
    refuses(&good, &text, Room { output: 13, ..room }, 8);
    assert!(build(&good, &text, room).is_ok());
}

/// Dictionaries, texts and room that meet each number, put together in all
/// ways: the first number in the order of the tests is answered.
#[test]
fn the_first_number_in_order_is_answered() {
    let texts = [(spelt("abcdab"), None), (vec![97; 65_536], Some(4))];
    for (dictionary, refused_dictionary) in &Dictionary::good_and_refused() {
        for (text, refused_text) in &texts {
            for work in [8 * text.len(), 8 * text.len() - 1, 0] {
                let refused_work = (work < 8 * text.len()).then_some(7);
                for output in [14, 13, 0] {
                    let refused_output = (output < 14).then_some(8);
                    let expected = refused_dictionary
                        .or(*refused_text)
                        .or(refused_work)
                        .or(refused_output);
                    let answer = build(dictionary, text, Room { output, work });
                    assert_eq!(answer.err(), expected);
                }
            }
        }
    }
}
