//! Readability, each of its rules broken alone, and the tally of what is
//! readable. Every answer is written out from the definition, and is also the
//! one that the oracle gives.

use crate::support::dictionary::Dictionary;
use crate::support::oracle::{Key, Line, numbers};
use crate::support::reading::tally;

/// The words ab, abc and bcd.
fn a() -> Dictionary {
    Dictionary::spelt("ab abc bcd")
}

/// The words a, aa and aaa.
fn b() -> Dictionary {
    Dictionary::spelt("a aa aaa")
}

/// The index is readable, and has these counts of entries, each with its length.
#[track_caller]
fn counts(dictionary: &Dictionary, index: &[u16], expected: &[(usize, u64)]) {
    let mut by_length = [0; 32];
    for &(length, count) in expected {
        by_length[length - 1] = count;
    }
    let count = by_length.iter().sum::<u64>() as usize;
    assert_eq!(tally(dictionary, index), Ok((by_length, count)));
}

#[track_caller]
fn unreadable(dictionary: &Dictionary, index: &[u16]) {
    assert_eq!(tally(dictionary, index), Err(5));
}

#[test]
fn examples_of_the_definition() {
    let abcdab = [6, 3, 0, 0, 1, 0, 1, 1, 0, 2, 1, 5, 1, 2];
    counts(&a(), &abcdab, &[(2, 1), (3, 2)]);
    let axa = [3, 2, 1, 97, 2, 1, 120, 1, 1, 3, 2];
    counts(&a(), &axa, &[(1, 3)]);
    counts(&a(), &[0, 0], &[]);
    counts(&b(), &[4, 1, 0, 2, 2, 1, 2], &[(3, 2)]);
    // Readable, though no text has them.
    counts(&a(), &[2, 2, 1, 97, 1, 1, 98, 1, 1, 2], &[(1, 2)]);
    counts(&a(), &[2, 1, 1, 97, 1, 1], &[(1, 1)]);
    unreadable(&b(), &[1, 1, 1, 97, 1, 1]);
}

#[test]
fn fewer_than_two_numbers() {
    unreadable(&a(), &[]);
    unreadable(&a(), &[0]);
    unreadable(&a(), &[6]);
    counts(&a(), &[6, 0], &[]);
    counts(&a(), &[65_535, 0], &[]);
}

/// The directory does not fit, also where 2 + 3K is small in 16 bits.
#[test]
fn more_keys_than_the_slice_holds() {
    for keys in [1, 2, 3, 21_845, 21_846, 43_690, 43_691, 65_535] {
        unreadable(&a(), &[6, keys]);
        unreadable(&a(), &[6, keys, 0, 0]);
        unreadable(&a(), &[6, keys, 0, 0, 1, 5, 5]);
    }
    unreadable(&a(), &[6, 0, 0, 0, 1, 5]);
    counts(&a(), &[6, 1, 0, 0, 1, 5], &[(2, 1)]);
}

#[test]
fn a_kind_is_0_or_1() {
    counts(&a(), &[6, 1, 0, 0, 1, 5], &[(2, 1)]);
    counts(&a(), &[6, 1, 1, 0, 1, 5], &[(1, 1)]);
    for kind in [2, 3, 255, 256, 0x8000, 0xFFFF] {
        unreadable(&a(), &[6, 1, kind, 0, 1, 5]);
        unreadable(&a(), &[6, 2, 0, 0, 1, kind, 0, 1, 5, 5]);
        unreadable(&a(), &[6, 2, 1, 0, 1, kind, 0, 1, 5, 5]);
    }
}

#[test]
fn a_word_number_is_below_the_number_of_words() {
    counts(&a(), &[6, 1, 0, 2, 1, 1], &[(3, 1)]);
    for value in [3, 4, 4096, 65_535] {
        unreadable(&a(), &[6, 1, 0, value, 1, 1]);
    }
    unreadable(&Dictionary::default(), &[6, 1, 0, 0, 1, 1]);
    let most = Dictionary::of_single_characters(4096);
    counts(&most, &[6, 1, 0, 4095, 1, 6], &[(1, 1)]);
    unreadable(&most, &[6, 1, 0, 4096, 1, 6]);
}

#[test]
fn a_lone_key_is_no_word() {
    let words = Dictionary::spelt("a ab b cd e");
    for (character, is_word) in [
        ('a', true),
        ('b', true),
        ('c', false),
        ('d', false),
        ('e', true),
        ('f', false),
    ] {
        let character = character as u16;
        let index = [6, 1, 1, character, 1, 1];
        if is_word {
            unreadable(&words, &index);
            unreadable(&words, &[6, 2, 1, 0x20, 1, 1, character, 1, 1, 1]);
            unreadable(&words, &[6, 2, 1, character, 1, 1, 0x7A, 1, 1, 1]);
        } else {
            counts(&words, &index, &[(1, 1)]);
        }
    }
    // The word number of such a word is no lone character either.
    counts(&words, &[6, 1, 1, 0, 1, 1], &[(1, 1)]);
    let most = Dictionary::of_single_characters(4096);
    unreadable(&most, &[6, 1, 1, 0, 1, 1]);
    unreadable(&most, &[6, 1, 1, 4095, 1, 1]);
    counts(&most, &[6, 1, 1, 4096, 1, 1], &[(1, 1)]);
    counts(&most, &[6, 1, 1, 65_535, 1, 1], &[(1, 1)]);
}

#[test]
fn keys_ascend_strictly() {
    let pair = |first: Key, second: Key| numbers(6, &[(first, vec![1]), (second, vec![2])]);
    let (lower, higher) = (Key::Word(0), Key::Word(2));
    counts(&a(), &pair(lower, higher), &[(2, 1), (3, 1)]);
    unreadable(&a(), &pair(higher, lower));
    unreadable(&a(), &pair(lower, lower));
    let (low, high) = (Key::Lone(97), Key::Lone(0xFFFF));
    counts(&a(), &pair(low, high), &[(1, 2)]);
    unreadable(&a(), &pair(high, low));
    unreadable(&a(), &pair(low, low));
    unreadable(&a(), &pair(high, high));
    // A word comes before a lone character whatever their numbers.
    counts(&a(), &pair(higher, Key::Lone(0)), &[(1, 1), (3, 1)]);
    unreadable(&a(), &pair(Key::Lone(0), higher));
    counts(&a(), &pair(higher, Key::Lone(2)), &[(1, 1), (3, 1)]);
    unreadable(&a(), &pair(Key::Lone(97), lower));
}

#[test]
fn a_count_is_at_least_1() {
    unreadable(&a(), &[6, 1, 0, 0, 0]);
    unreadable(&a(), &[6, 1, 1, 0, 0]);
    unreadable(&a(), &[6, 2, 0, 0, 0, 0, 1, 1, 1]);
    unreadable(&a(), &[6, 2, 0, 0, 1, 0, 1, 0, 1]);
    counts(&a(), &[6, 2, 0, 0, 1, 0, 1, 1, 1, 1], &[(2, 1), (3, 1)]);
}

#[test]
fn the_length_is_that_of_header_directory_and_positions() {
    let abcdab = [6, 3, 0, 0, 1, 0, 1, 1, 0, 2, 1, 5, 1, 2];
    for length in 0..14 {
        unreadable(&a(), &abcdab[..length]);
    }
    for more in [0, 2, 3, 6] {
        unreadable(&a(), &[&abcdab[..], &[more]].concat());
    }
    unreadable(&a(), &[0, 0, 0]);
    unreadable(&a(), &[6, 1, 0, 0, 2, 5]);
    unreadable(&a(), &[6, 1, 0, 0, 1, 4, 5]);
}

#[test]
fn positions_start_at_1() {
    counts(&a(), &[6, 1, 0, 0, 1, 1], &[(2, 1)]);
    unreadable(&a(), &[6, 1, 0, 0, 1, 0]);
    unreadable(&a(), &[6, 1, 0, 0, 2, 0, 1]);
    unreadable(&a(), &[6, 2, 0, 0, 1, 1, 97, 1, 1, 0]);
    unreadable(&a(), &[6, 2, 0, 0, 1, 1, 97, 1, 0, 1]);
}

#[test]
fn positions_ascend_strictly_under_each_key() {
    counts(&a(), &[6, 1, 0, 0, 3, 1, 2, 5], &[(2, 3)]);
    unreadable(&a(), &[6, 1, 0, 0, 3, 1, 1, 5]);
    unreadable(&a(), &[6, 1, 0, 0, 3, 1, 5, 5]);
    unreadable(&a(), &[6, 1, 0, 0, 3, 2, 1, 5]);
    unreadable(&a(), &[6, 1, 0, 0, 3, 1, 5, 2]);
    unreadable(&a(), &[6, 1, 1, 97, 2, 5, 4]);
    unreadable(&a(), &[6, 1, 1, 97, 2, 5, 5]);
    // From one key to the next they may fall or stay.
    let falls = [6, 2, 0, 0, 2, 0, 1, 2, 4, 5, 1, 2];
    counts(&a(), &falls, &[(2, 2), (3, 2)]);
    let stays = [6, 2, 0, 0, 1, 0, 1, 1, 3, 3];
    counts(&a(), &stays, &[(2, 1), (3, 1)]);
}

#[test]
fn the_last_character_falls_at_or_before_n() {
    counts(&a(), &[6, 1, 0, 0, 1, 5], &[(2, 1)]);
    unreadable(&a(), &[6, 1, 0, 0, 1, 6]);
    counts(&a(), &[6, 1, 0, 1, 1, 4], &[(3, 1)]);
    unreadable(&a(), &[6, 1, 0, 1, 1, 5]);
    counts(&a(), &[6, 1, 1, 97, 1, 6], &[(1, 1)]);
    unreadable(&a(), &[6, 1, 1, 97, 1, 7]);
    unreadable(&a(), &[6, 1, 1, 97, 2, 1, 7]);
    // In every line, not only in the first or the last.
    unreadable(&a(), &[6, 2, 0, 0, 1, 1, 97, 1, 6, 1]);
    unreadable(&a(), &[6, 2, 0, 0, 1, 1, 97, 1, 1, 7]);
    unreadable(&a(), &[0, 1, 1, 97, 1, 1]);
    unreadable(&a(), &[1, 1, 0, 0, 1, 1]);
}

/// A position near 65,535 plus a length is small in 16 bits.
#[test]
fn the_last_character_near_65535() {
    let n = 65_535;
    counts(&a(), &[n, 1, 1, 97, 1, n], &[(1, 1)]);
    counts(&a(), &[n, 1, 0, 0, 1, n - 1], &[(2, 1)]);
    unreadable(&a(), &[n, 1, 0, 0, 1, n]);
    unreadable(&a(), &[n, 1, 0, 1, 1, n]);
    unreadable(&a(), &[6, 1, 0, 0, 1, n]);
    unreadable(&a(), &[6, 1, 1, 97, 1, n]);
    let long = Dictionary::of([[7; 32]]);
    counts(&long, &[n, 1, 0, 0, 1, n - 31], &[(32, 1)]);
    unreadable(&long, &[n, 1, 0, 0, 1, n - 30]);
    unreadable(&long, &[n, 1, 0, 0, 1, n]);
}

#[test]
fn every_length_has_its_count() {
    let words = Dictionary::of((1..=32).map(|length| vec![7; length]));
    let line = |number: u16| (Key::Word(number), (1..=number + 1).collect());
    let lines: Vec<Line> = (0..32).map(line).collect();
    let expected: Vec<(usize, u64)> = (1..=32).map(|length| (length, length as u64)).collect();
    counts(&words, &numbers(100, &lines), &expected);
    for (line, &count) in lines.iter().zip(&expected) {
        counts(&words, &numbers(100, std::slice::from_ref(line)), &[count]);
    }
}

#[test]
fn words_of_one_character_and_lone_ones_count_alike() {
    let words = Dictionary::spelt("a abcdefghijklmnopqrstuvwxyzABCDEF b");
    let lines = [
        (Key::Word(0), vec![1, 2, 3]),
        (Key::Word(1), vec![4, 5]),
        (Key::Word(2), vec![50]),
        (Key::Lone(0), vec![1, 60]),
        (Key::Lone(0x63), vec![7]),
    ];
    counts(&words, &numbers(60, &lines), &[(1, 7), (32, 2)]);
}

/// Counts whose sum is small in 16 bits do not make the length right.
#[test]
fn counts_that_add_up_to_65536() {
    unreadable(&a(), &[6, 2, 1, 97, 65_535, 1, 98, 1]);
    unreadable(&a(), &[6, 2, 1, 97, 32_768, 1, 98, 32_768]);
    unreadable(&a(), &[6, 2, 1, 97, 65_535, 1, 98, 2, 1]);
    let third = [21_846, 21_845, 21_846];
    let line = |i: u16| [1, 97 + i, third[usize::from(i)]];
    let short = [&[6, 3][..], &[line(0), line(1), line(2)].concat(), &[1]].concat();
    unreadable(&a(), &short);
}

/// More entries than a text could have, though readable.
#[test]
fn more_than_65535_entries() {
    let all: Vec<u16> = (1..=65_535).collect();
    let lines: Vec<Line> = (97..100).map(|c| (Key::Lone(c), all.clone())).collect();
    let mut index = numbers(65_535, &lines);
    counts(&a(), &index, &[(1, 196_605)]);
    index.push(1);
    unreadable(&a(), &index);
    index.truncate(index.len() - 2);
    unreadable(&a(), &index);
    // 65,536 numbers fewer than it says.
    index.truncate(index.len() + 1 - 65_536);
    unreadable(&a(), &index);
}

#[test]
fn an_index_of_65535_keys() {
    let lone = |character: u16| (Key::Lone(character), vec![1]);
    let lines: Vec<Line> = (0..=65_534).map(lone).collect();
    let none = Dictionary::default();
    let index = numbers(1, &lines);
    counts(&none, &index, &[(1, 65_535)]);
    unreadable(&a(), &index[..index.len() - 1]);
    unreadable(&Dictionary::of([[65_534]]), &index);
    counts(&Dictionary::of([[65_535]]), &index, &[(1, 65_535)]);
}

#[test]
fn the_first_number_in_order_is_answered() {
    for (dictionary, refused) in Dictionary::good_and_refused() {
        for index in [&[][..], &[6, 1, 2, 0, 1, 1]] {
            assert_eq!(tally(&dictionary, index), Err(refused.unwrap_or(5)));
        }
        for index in [&[0, 0][..], &[6, 1, 1, 97, 1, 1]] {
            assert_eq!(tally(&dictionary, index).err(), refused);
        }
    }
}
