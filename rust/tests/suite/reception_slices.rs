//! Reception and recovery: how much they are lent, what they leave in it, and
//! which refusal comes first. Every answer is written out from the definition,
//! and is also the one that the oracle gives.

use crate::support::building::Room;
use crate::support::call::{Written, assert_call};
use crate::support::dictionary::Dictionary;
use crate::support::oracle::{Key, numbers};
use crate::support::reception::{assert_receives, recover};
use crate::support::text::spelt;

/// The index of abcdab with the words ab, abc and bcd.
const ABCDAB: &[u16] = &[6, 3, 0, 0, 1, 0, 1, 1, 0, 2, 1, 5, 1, 2];

/// The words ab, abc and bcd.
fn a() -> Dictionary {
    Dictionary::spelt("ab abc bcd")
}

#[track_caller]
fn refuses(index: &[u16], room: Room, number: u32) {
    assert_eq!(recover(&a(), index, room), Err(number));
}

#[test]
fn work_of_8n_is_enough_and_one_less_is_not() {
    for n in [1, 2, 3, 60, 8191, 8192, 65_535] {
        let all: Vec<u16> = (1..=n).collect();
        let n = usize::from(n);
        let index = numbers(n as u16, &[(Key::Lone(98), all)]);
        let text = vec![98; n];
        for work in [8 * n, 8 * n + 1] {
            assert_receives(&a(), &index, Room { output: n, work }, Ok(&text));
        }
        for work in [8 * n - 1, 8 * n - 8, 2 * n, n, 1, 0] {
            if work < 8 * n {
                assert_receives(&a(), &index, Room { output: n, work }, Err(7));
            }
        }
    }
}

#[test]
fn an_output_one_short_is_refused_and_untouched() {
    for (index, text) in [(ABCDAB, "abcdab"), (&[1, 1, 1, 98, 1, 1], "b")] {
        let text = spelt(text);
        let n = text.len();
        let work = 8 * n;
        let received = recover(&a(), index, Room { output: n, work });
        assert_eq!(received, Ok(text));
        for output in 0..n {
            refuses(index, Room { output, work }, 8);
        }
    }
}

/// The work slice is cleared over its whole length, also past 8n and also where
/// the dictionary or the index is refused; `recover` looks at that.
#[test]
fn every_answer_clears_a_long_work_slice() {
    let room = Room {
        output: 20,
        work: 1000,
    };
    for (dictionary, refused) in Dictionary::good_and_refused() {
        let answer = recover(&dictionary, ABCDAB, room);
        assert_eq!(answer.err(), refused);
    }
    refuses(&ABCDAB[1..], room, 5);
    refuses(&[126, 1, 1, 97, 1, 1], room, 7);
    refuses(&[125, 1, 1, 97, 1, 1], room, 9);
    refuses(ABCDAB, Room { output: 5, ..room }, 8);
}

/// What the work slice holds before the call is not part of the index. Here two
/// entries start together and none where the work slice holds the text and the
/// number of a line, wherever the library may keep them.
#[test]
fn work_that_holds_what_the_index_lacks() {
    let none = Dictionary::default();
    let lone = numbers(2, &[(Key::Lone(97), vec![1]), (Key::Lone(98), vec![1])]);
    let words = Dictionary::spelt("ab cd");
    let double = numbers(4, &[(Key::Word(0), vec![1]), (Key::Word(1), vec![1])]);
    for note in [0, 1, 2, 98, 4097] {
        for text in ["aa", "ab", "ba", "bb"] {
            refuses_whatever_work_holds(&none, &lone, &spelt(text), &[note, note]);
        }
        for text in ["abab", "abcd", "cdab", "cdcd"] {
            refuses_whatever_work_holds(&words, &double, &spelt(text), &[note, 0, note, 0]);
        }
    }
}

/// No text has the index, with a work slice of eight parts of which each holds
/// this text or these numbers.
#[track_caller]
fn refuses_whatever_work_holds(
    dictionary: &Dictionary,
    index: &[u16],
    text: &[u16],
    line_map: &[u16],
) {
    let read = [&dictionary.chars[..], &dictionary.lengths, index];
    for pattern in 0..1 << 8 {
        let part = |i| {
            if pattern >> i & 1 == 1 {
                text
            } else {
                line_map
            }
        };
        let held = (0..8).map(part).collect::<Vec<_>>().concat();
        assert_call(
            read,
            [Written::Used(&held)],
            Err(9),
            |[chars, lengths, index], [work]| mopekihua::receive_with(chars, lengths, index, work),
        );
        assert_call(
            read,
            [Written::Output(text.len(), &[]), Written::Used(&held)],
            Err(9),
            |[chars, lengths, index], [output, work]| {
                mopekihua::recover_into(chars, lengths, index, output, work)
            },
        );
    }
}

/// Dictionaries, indexes and room that meet each number, put together in all
/// ways: the first number in the order of the tests is answered, and 8 only where
/// a text has the index.
#[test]
fn the_first_number_in_order_is_answered() {
    let uncovered: &[u16] = &[6, 1, 0, 0, 1, 5];
    let indexes = [
        (ABCDAB, None, None),
        (&ABCDAB[..13], Some(5), None),
        (uncovered, None, Some(9)),
    ];
    for (dictionary, refused_dictionary) in &Dictionary::good_and_refused() {
        for (index, unreadable, no_text) in indexes {
            for (work, refused_work) in [(48, None), (47, Some(7)), (0, Some(7))] {
                for (output, refused_output) in [(6, None), (5, Some(8)), (0, Some(8))] {
                    let expected = refused_dictionary
                        .or(unreadable)
                        .or(refused_work)
                        .or(no_text)
                        .or(refused_output);
                    let answer = recover(dictionary, index, Room { output, work });
                    assert_eq!(answer.err(), expected);
                }
            }
        }
    }
}
