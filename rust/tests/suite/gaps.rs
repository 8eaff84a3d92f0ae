//! Gap forms of indexes, and indexes restored from them, with outputs of each
//! length. Every answer is written out from the definition, and is also the one
//! that the oracle gives.

use mopekihua::HEADER;

use crate::support::delivery::{Delivery, delivery};
use crate::support::dictionary::Dictionary;
use crate::support::gaps::{from_gaps, to_gaps};
use crate::support::oracle::{Key, Line, numbers};

/// The index has this gap form and is restored from it, with an output just long
/// enough and with a longer one.
#[track_caller]
fn has_gaps(dictionary: &Dictionary, index: &[u16], gaps: &[u16]) {
    for output_len in [index.len(), index.len() + 3] {
        let rearranged = to_gaps(dictionary, index, output_len);
        assert!(rearranged.as_deref() == Ok(gaps), "{rearranged:?}");
        let restored = from_gaps(dictionary, gaps, output_len);
        assert!(restored.as_deref() == Ok(index), "{restored:?}");
    }
    let Dictionary { chars, lengths } = dictionary;
    let rearranged = mopekihua::to_gaps(chars, lengths, index);
    assert!(rearranged.as_deref() == Ok(gaps));
    let restored = mopekihua::from_gaps(chars, lengths, gaps);
    assert!(restored.as_deref() == Ok(index));
}

/// Lists of positions of lone characters, and as gaps, with this n.
#[track_caller]
fn lists_have_gaps(n: u16, lists: &[&[u16]], gaps: &[&[u16]]) {
    let index_of = |lists: &[&[u16]]| {
        let keys = (0x61..).map(Key::Lone);
        let lines: Vec<Line> = keys.zip(lists.iter().map(|list| list.to_vec())).collect();
        numbers(n, &lines)
    };
    has_gaps(&Dictionary::default(), &index_of(lists), &index_of(gaps));
}

#[test]
fn examples_of_the_definition() {
    let a = Dictionary::spelt("ab abc bcd");
    let abcdab = [6, 3, 0, 0, 1, 0, 1, 1, 0, 2, 1, 5, 1, 2];
    has_gaps(&a, &abcdab, &abcdab);
    let axa = [3, 2, 1, 97, 2, 1, 120, 1, 1, 3, 2];
    has_gaps(&a, &axa, &[3, 2, 1, 97, 2, 1, 120, 1, 1, 2, 2]);
    has_gaps(&a, &[0, 0], &[0, 0]);
    let b = Dictionary::spelt("a aa aaa");
    has_gaps(&b, &[4, 1, 0, 2, 2, 1, 2], &[4, 1, 0, 2, 2, 1, 1]);
}

#[test]
fn the_index_of_a_sheet() {
    let Delivery { dictionary, index } = delivery("DN 配管", "配管DN15、配管DN20、DN15");
    // DN at 3, 10 and 15; 配管 at 1 and 8; 0 at 13, 1 at 5 and 17, 2 at 12, 5 at
    // 6 and 18; 、 at 7 and 14.
    let positions = [3, 10, 15, 1, 8, 13, 5, 17, 12, 6, 18, 7, 14];
    let gaps = [3, 7, 5, 1, 7, 13, 5, 12, 12, 6, 12, 7, 7];
    let (directory, listed) = index.split_at(HEADER + 3 * 7);
    assert_eq!(listed, positions);
    has_gaps(&dictionary, &index, &[directory, &gaps].concat());
}

/// From the position before, and not from the first one.
#[test]
fn the_distance_from_the_position_before() {
    lists_have_gaps(20, &[&[1, 2, 4, 8, 16]], &[&[1, 1, 2, 4, 8]]);
    lists_have_gaps(20, &[&[5, 6, 7, 20]], &[&[5, 1, 1, 13]]);
    lists_have_gaps(9, &[&[1, 5, 9]], &[&[1, 4, 4]]);
    lists_have_gaps(9, &[&[3, 9]], &[&[3, 6]]);
    lists_have_gaps(9, &[&[9]], &[&[9]]);
}

/// What is under the key before does not count, whether the positions fall, stay
/// or ascend from one key to the next.
#[test]
fn each_key_begins_anew() {
    lists_have_gaps(9, &[&[4, 5], &[1, 3]], &[&[4, 1], &[1, 2]]);
    lists_have_gaps(9, &[&[1, 3], &[3, 5]], &[&[1, 2], &[3, 2]]);
    lists_have_gaps(9, &[&[1, 3], &[4, 9]], &[&[1, 2], &[4, 5]]);
    lists_have_gaps(9, &[&[1, 2], &[9]], &[&[1, 1], &[9]]);
    lists_have_gaps(9, &[&[9], &[9], &[9]], &[&[9], &[9], &[9]]);
    lists_have_gaps(
        9,
        &[&[2, 5, 9], &[1], &[3, 4], &[9], &[1, 9]],
        &[&[2, 3, 4], &[1], &[3, 1], &[9], &[1, 8]],
    );
    // Words and lone characters alike.
    let words = Dictionary::spelt("ab abc");
    let lines = [
        (Key::Word(0), vec![4, 7]),
        (Key::Word(1), vec![2, 6]),
        (Key::Lone(0x7A), vec![1, 8]),
    ];
    let gaps = [4, 3, 2, 4, 1, 7];
    let index = numbers(8, &lines);
    has_gaps(&words, &index, &[&index[..11], &gaps].concat());
}

#[test]
fn an_index_without_keys() {
    for n in [0, 1, 7, 65_535] {
        has_gaps(&Dictionary::default(), &[n, 0], &[n, 0]);
        has_gaps(&Dictionary::spelt("ab abc bcd"), &[n, 0], &[n, 0]);
    }
}

/// Entries conflict, leave positions uncovered and lie within each other; a lone
/// key is a full-width form, which is not replaced.
#[test]
fn indexes_that_no_text_has() {
    lists_have_gaps(4, &[&[1, 2], &[1, 2]], &[&[1, 1], &[1, 1]]);
    lists_have_gaps(9, &[&[2, 8]], &[&[2, 6]]);
    let words = Dictionary::spelt("a aa");
    let inside = [9, 2, 0, 0, 2, 0, 1, 2, 1, 2, 1, 2];
    let gaps = [9, 2, 0, 0, 2, 0, 1, 2, 1, 1, 1, 1];
    has_gaps(&words, &inside, &gaps);
    let none = Dictionary::default();
    let form = [5, 1, 1, 0xFF21, 2, 2, 5];
    has_gaps(&none, &form, &[5, 1, 1, 0xFF21, 2, 2, 3]);
    // A position and a gap that are the numbers of full-width forms.
    let far = [0xFFFF, 1, 1, 0x61, 2, 0x21, 0xFF41];
    has_gaps(&none, &far, &[0xFFFF, 1, 1, 0x61, 2, 0x21, 0xFF20]);
}

/// One run of numbers may be an index and the gap form of another.
#[test]
fn a_gap_form_may_be_readable() {
    let none = Dictionary::default();
    let [low, middle, high] = [[1, 1, 2], [1, 2, 4], [1, 3, 7]]
        .map(|list| numbers(9, &[(Key::Lone(0x61), list.to_vec())]));
    has_gaps(&none, &middle, &low);
    has_gaps(&none, &high, &middle);
    assert_eq!(to_gaps(&none, &low, 8), Err(5));
    assert_eq!(from_gaps(&none, &high, 8), Err(5));
}

#[test]
fn positions_as_far_as_they_go() {
    let n = 65_535;
    lists_have_gaps(n, &[&[n]], &[&[n]]);
    lists_have_gaps(n, &[&[1, n]], &[&[1, n - 1]]);
    lists_have_gaps(n, &[&[n - 1, n]], &[&[n - 1, 1]]);
    lists_have_gaps(n, &[&[1, 32_768, n]], &[&[1, 32_767, 32_767]]);
    lists_have_gaps(n, &[&[3, n], &[n], &[2]], &[&[3, n - 3], &[n], &[2]]);
}

/// More numbers than 16 bits count.
#[test]
fn every_position_under_each_of_three_keys() {
    let all: Vec<u16> = (1..=65_535).collect();
    let ones = vec![1; 65_535];
    lists_have_gaps(65_535, &[&all, &all, &all], &[&ones, &ones, &ones]);
    let short = &all[..65_534];
    lists_have_gaps(65_535, &[short, &all], &[&ones[1..], &ones]);
}

#[test]
fn as_many_keys_as_an_index_has() {
    let line = |character: u16| (Key::Lone(character), vec![1 + character % 7]);
    let lines: Vec<Line> = (0..=65_534).map(line).collect();
    let index = numbers(7, &lines);
    has_gaps(&Dictionary::default(), &index, &index);
    let pair = |character: u16, second| (Key::Lone(character), vec![1 + character % 7, second]);
    let index: Vec<Line> = (0..=65_534).map(|c| pair(c, 9)).collect();
    let gaps: Vec<Line> = (0..=65_534).map(|c| pair(c, 8 - c % 7)).collect();
    has_gaps(
        &Dictionary::default(),
        &numbers(9, &index),
        &numbers(9, &gaps),
    );
}

#[test]
fn an_output_one_short_is_refused_and_untouched() {
    let words = Dictionary::spelt("ab");
    for (index, gaps) in [
        (&[7, 1, 0, 0, 3, 1, 3, 6][..], &[7, 1, 0, 0, 3, 1, 2, 3][..]),
        (&[7, 1, 1, 97, 1, 5], &[7, 1, 1, 97, 1, 5]),
        (&[7, 0], &[7, 0]),
    ] {
        has_gaps(&words, index, gaps);
        for output_len in 0..index.len() {
            assert_eq!(to_gaps(&words, index, output_len), Err(8));
            assert_eq!(from_gaps(&words, gaps, output_len), Err(8));
        }
    }
}

/// Dictionaries, numbers and outputs that meet each number, put together in all
/// ways.
#[test]
fn the_first_number_in_order_is_answered() {
    let index: &[u16] = &[7, 1, 0, 0, 3, 1, 3, 6];
    let gaps: &[u16] = &[7, 1, 0, 0, 3, 1, 2, 3];
    let unreadable: [&[u16]; 4] = [&[], &[7], &index[..7], &[7, 1, 0, 0, 3, 1, 0, 6]];
    for (dictionary, refused) in &Dictionary::good_and_refused() {
        for output_len in [8, 9, 7, 1, 0] {
            let too_short = (output_len < 8).then_some(8);
            let expected = refused.or(too_short);
            assert_eq!(to_gaps(dictionary, index, output_len).err(), expected);
            assert_eq!(from_gaps(dictionary, gaps, output_len).err(), expected);
            for numbers in unreadable {
                let expected = Err(refused.unwrap_or(5));
                assert_eq!(to_gaps(dictionary, numbers, output_len), expected);
                assert_eq!(from_gaps(dictionary, numbers, output_len), expected);
            }
        }
    }
}
