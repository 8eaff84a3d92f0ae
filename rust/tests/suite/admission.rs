//! Admission at each of its limits. Every answer is written out from the
//! definition, and is also the one that the oracle gives.

use crate::support::admission::{answers, lent};
use crate::support::dictionary::Dictionary;

#[test]
fn examples_of_the_definition_are_admitted() {
    answers(&Dictionary::spelt("ab abc bcd"), Ok(3));
    answers(&Dictionary::spelt("a aa aaa"), Ok(3));
    answers(&Dictionary::spelt("図 図面 寸法 平面図 面"), Ok(5));
}

#[test]
fn the_empty_dictionary_has_no_words() {
    answers(&Dictionary::default(), Ok(0));
    assert_eq!(mopekihua::admit(&[], &[]), Ok(0));
}

#[test]
fn at_most_4096_words() {
    answers(&Dictionary::of_single_characters(4095), Ok(4095));
    answers(&Dictionary::of_single_characters(4096), Ok(4096));
    answers(&Dictionary::of_single_characters(4097), Err(1));
    answers(&Dictionary::of_single_characters(65535), Err(1));
}

#[test]
fn at_most_65535_characters() {
    answers(&Dictionary::of_total_length(65_534), Ok(2048));
    answers(&Dictionary::of_total_length(65_535), Ok(2048));
    answers(&Dictionary::of_total_length(65_536), Err(1));
    answers(&Dictionary::of_total_length(131_072), Err(1));
}

#[test]
fn a_word_has_1_to_32_characters() {
    answers(&lent(&[7; 1], &[1]), Ok(1));
    answers(&lent(&[7; 31], &[31]), Ok(1));
    answers(&lent(&[7; 32], &[32]), Ok(1));
    answers(&lent(&[7; 33], &[33]), Err(2));
    answers(&lent(&[7; 34], &[34]), Err(2));
    answers(&lent(&[7; 65535], &[65535]), Err(2));
    answers(&lent(&[], &[0]), Err(2));
    answers(&lent(&[7], &[0, 1]), Err(2));
    answers(&lent(&[7], &[1, 0]), Err(2));
    answers(&lent(&[7, 8], &[1, 0, 1]), Err(2));
}

#[test]
fn a_wrong_length_is_met_at_every_place() {
    let good = Dictionary::of_single_characters(9);
    for i in 0..9 {
        for length in [0, 33] {
            let mut bad = good.clone();
            bad.lengths[i] = length;
            let sum: usize = bad.lengths.iter().map(|&l| usize::from(l)).sum();
            bad.chars = (0..sum as u16).collect();
            answers(&bad, Err(2));
        }
    }
}

#[test]
fn lengths_add_up_to_the_characters() {
    let eight = Dictionary::spelt("ab abc bcd").chars;
    answers(&lent(&eight, &[2, 3, 3]), Ok(3));
    answers(&lent(&eight, &[2, 3, 2]), Err(2));
    answers(&lent(&eight, &[2, 3, 4]), Err(2));
    answers(&lent(&eight, &[2, 3]), Err(2));
    answers(&lent(&eight, &[2, 3, 3, 1]), Err(2));
    answers(&lent(&[], &[1]), Err(2));
    answers(&lent(&[7], &[]), Err(2));
    answers(&lent(&[7; 65535], &[]), Err(2));
}

/// The sum is taken in full, not in 16 bits: 4,096 words of 32 characters claim
/// 131,072, which is 0 in 16 bits.
#[test]
fn a_sum_above_65535_does_not_add_up() {
    answers(&lent(&[], &[32; 4096]), Err(2));
    answers(&lent(&[7; 5], &[32; 4096]), Err(2));
    answers(&lent(&[7; 65535], &[32; 4096]), Err(2));
    // 65,536 claimed, 0 lent.
    answers(&lent(&[], &[32; 2048]), Err(2));
    // 65,568 claimed, 32 lent: equal in 16 bits.
    answers(&lent(&[7; 32], &[32; 2049]), Err(2));
    // 65,536 claimed, 65,535 lent.
    answers(&lent(&[7; 65535], &[32; 2048]), Err(2));
}

#[test]
fn neighbours_ascend_strictly() {
    answers(&Dictionary::spelt("a b"), Ok(2));
    answers(&Dictionary::spelt("b a"), Err(3));
    answers(&Dictionary::spelt("ab ab"), Err(3));
    answers(&Dictionary::spelt("ab ac"), Ok(2));
    answers(&Dictionary::spelt("ac ab"), Err(3));
    answers(&Dictionary::spelt("ab b"), Ok(2));
    answers(&Dictionary::spelt("b ab"), Err(3));
    answers(&Dictionary::spelt("az b"), Ok(2));
    answers(&Dictionary::spelt("aab ab"), Ok(2));
}

#[test]
fn a_proper_prefix_comes_first() {
    answers(&Dictionary::spelt("ab abc"), Ok(2));
    answers(&Dictionary::spelt("abc ab"), Err(3));
    let longest = [7u16; 32];
    answers(&Dictionary::of([&longest[..31], &longest[..]]), Ok(2));
    answers(&Dictionary::of([&longest[..], &longest[..31]]), Err(3));
    answers(&Dictionary::of([longest, longest]), Err(3));
}

#[test]
fn a_difference_in_the_last_of_32_characters_counts() {
    let low = [7u16; 32];
    let mut high = low;
    high[31] = 8;
    answers(&Dictionary::of([low, high]), Ok(2));
    answers(&Dictionary::of([high, low]), Err(3));
}

#[test]
fn two_words_out_of_order_are_met_at_every_place() {
    let good = Dictionary::of_single_characters(9);
    for i in 0..8 {
        let mut falling = good.clone();
        falling.chars.swap(i, i + 1);
        answers(&falling, Err(3));
        let mut equal = good.clone();
        equal.chars[i + 1] = equal.chars[i];
        answers(&equal, Err(3));
    }
}

#[test]
fn characters_are_plain_numbers() {
    let ascending = [
        0x0000, 0x0001, 0x7FFF, 0x8000, 0xD800, 0xDBFF, 0xDC00, 0xDFFF, 0xFFFF,
    ];
    answers(&Dictionary::of(ascending.map(|c| [c])), Ok(9));
    for pair in ascending.windows(2) {
        answers(&Dictionary::of([[pair[0]], [pair[1]]]), Ok(2));
        answers(&Dictionary::of([[pair[1]], [pair[0]]]), Err(3));
        answers(&Dictionary::of([[pair[0]], [pair[0]]]), Err(3));
    }
    // By numbers a surrogate pair sorts below U+FF71, unlike by code points.
    answers(&Dictionary::spelt("\u{1F600} \u{FF71}"), Ok(2));
    answers(&Dictionary::of([&[0u16][..], &[0, 0], &[0, 0, 0]]), Ok(3));
    answers(&Dictionary::of([&[0u16][..], &[0, 0], &[0, 0]]), Err(3));
}

#[test]
fn refusal_1_comes_before_2() {
    answers(&lent(&[7; 65536], &[33]), Err(1));
    answers(&lent(&[7; 65536], &[]), Err(1));
    answers(&lent(&[7; 65536], &[0]), Err(1));
    answers(&lent(&[], &[1; 4097]), Err(1));
    answers(&lent(&[], &[0; 4097]), Err(1));
    answers(&lent(&[7; 3], &[33; 4097]), Err(1));
}

#[test]
fn refusal_1_comes_before_3() {
    answers(&lent(&[7; 4097], &[1; 4097]), Err(1));
    answers(&lent(&[7; 65536], &[32; 2048]), Err(1));
}

#[test]
fn refusal_2_comes_before_3() {
    // Falling words first, then a wrong length; and the other way round.
    answers(&lent(&[9, 8, 7], &[1, 1, 2]), Err(2));
    answers(&lent(&[9, 8, 7], &[1, 1]), Err(2));
    answers(&lent(&[9, 8], &[1, 1, 0]), Err(2));
    answers(&lent(&[9, 8], &[0, 1, 1]), Err(2));
    answers(&lent(&[7; 35], &[1, 1, 33]), Err(2));
    answers(&lent(&[7; 35], &[33, 1, 1]), Err(2));
    answers(&lent(&[7; 4], &[2, 2, 2]), Err(2));
}

#[test]
fn refusal_1_comes_before_2_and_3() {
    let mut lengths = vec![1; 4097];
    lengths[4096] = 33;
    answers(&lent(&[7; 4097], &lengths), Err(1));
    answers(&lent(&[7; 65536], &lengths), Err(1));
    answers(&lent(&[7; 65536], &[1, 1, 0]), Err(1));
}
