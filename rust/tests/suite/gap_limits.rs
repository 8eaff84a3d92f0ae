//! Gap forms at each limit of what they restore to, and numbers that are the gap
//! form of no readable index. Every answer is written out from the definition,
//! and is also the one that the oracle gives.

use crate::support::dictionary::Dictionary;
use crate::support::gaps::{from_gaps, to_gaps};
use crate::support::oracle::{Key, Line, numbers, restored};

/// The words ab, abc and bcd.
fn a() -> Dictionary {
    Dictionary::spelt("ab abc bcd")
}

/// Lists of gaps, those of lone characters from x on, with this n.
fn lone(n: u16, lists: &[&[u16]]) -> Vec<u16> {
    let keys = (0x78..).map(Key::Lone);
    let lines: Vec<Line> = keys.zip(lists.iter().map(|list| list.to_vec())).collect();
    numbers(n, &lines)
}

/// The gap form is that of the index with these positions.
#[track_caller]
fn restores(dictionary: &Dictionary, gaps: &[u16], positions: &[u16]) {
    let directory = &gaps[..gaps.len() - positions.len()];
    let index = from_gaps(dictionary, gaps, gaps.len());
    assert_eq!(index, Ok([directory, positions].concat()));
}

/// It is that of no readable index, whatever output is lent.
#[track_caller]
fn refused(dictionary: &Dictionary, gaps: &[u16]) {
    for output_len in [gaps.len(), gaps.len() + 9, 0] {
        assert_eq!(from_gaps(dictionary, gaps, output_len), Err(5));
    }
}

/// Neither an index nor the gap form of one.
#[track_caller]
fn neither(dictionary: &Dictionary, numbers: &[u16]) {
    refused(dictionary, numbers);
    for output_len in [numbers.len(), numbers.len() + 9, 0] {
        assert_eq!(to_gaps(dictionary, numbers, output_len), Err(5));
    }
}

#[test]
fn a_gap_of_0() {
    restores(&a(), &lone(9, &[&[1, 2, 3]]), &[1, 3, 6]);
    refused(&a(), &lone(9, &[&[0, 2, 3]]));
    refused(&a(), &lone(9, &[&[1, 0, 3]]));
    refused(&a(), &lone(9, &[&[1, 2, 0]]));
    refused(&a(), &lone(9, &[&[0]]));
    refused(&a(), &lone(0, &[&[0]]));
    // In each line, at its first number and at its second.
    let good = [9, 3, 0, 0, 2, 0, 1, 2, 1, 0x78, 2, 1, 2, 3, 1, 4, 5];
    restores(&a(), &good, &[1, 3, 3, 4, 4, 9]);
    for i in 11..17 {
        let mut gaps = good;
        gaps[i] = 0;
        refused(&a(), &gaps);
    }
}

/// The last character of the key falls at n, and one after it.
#[test]
fn the_last_sum_just_meets_n() {
    let words = Dictionary::of((1..=32).map(|length| vec![7; length]));
    for long in 1..=32 {
        for n in [40, 255, 256, 65_535] {
            let last = n - (long - 1);
            let of = |gaps: &[u16]| numbers(n, &[(Key::Word(long - 1), gaps.to_vec())]);
            restores(&words, &of(&[last]), &[last]);
            restores(&words, &of(&[3, last - 3]), &[3, last]);
            restores(&words, &of(&[1, 1, last - 2]), &[1, 2, last]);
            refused(&words, &of(&[3, last - 2]));
            refused(&words, &of(&[1, 1, last - 1]));
            refused(&words, &of(&[last, 1]));
        }
        refused(
            &words,
            &numbers(40, &[(Key::Word(long - 1), vec![42 - long])]),
        );
    }
}

/// In every line, not only in the first or the last.
#[test]
fn a_sum_past_n_in_each_line() {
    let good: [&[u16]; 3] = [&[1, 8], &[4, 5], &[9]];
    restores(&a(), &lone(9, &good), &[1, 9, 4, 9, 9]);
    refused(&a(), &lone(9, &[&[1, 9], good[1], good[2]]));
    refused(&a(), &lone(9, &[good[0], &[4, 6], good[2]]));
    refused(&a(), &lone(9, &[good[0], good[1], &[10]]));
    refused(&a(), &lone(8, &good));
}

/// These pass only with what is under the key before, or only without it.
#[test]
fn each_key_begins_anew() {
    restores(&a(), &lone(9, &[&[1, 8], &[1, 8]]), &[1, 9, 1, 9]);
    restores(&a(), &lone(9, &[&[9], &[9], &[9]]), &[9, 9, 9]);
    refused(&a(), &lone(9, &[&[1, 3], &[0, 2]]));
    refused(&a(), &lone(9, &[&[5], &[0]]));
    // Back by as much as the sums under the key before, in 16 bits.
    refused(&a(), &lone(9, &[&[5], &[65_532]]));
    refused(&a(), &lone(9, &[&[5, 2], &[65_530, 1]]));
}

/// Each sum is a position of the text in 16 bits, and some are none.
#[test]
fn sums_do_not_wrap() {
    refused(&a(), &lone(9, &[&[3, 65_534]]));
    refused(&a(), &lone(65_535, &[&[3, 65_534]]));
    for n in [9, 65_535] {
        restores(&a(), &lone(n, &[&[3, 6]]), &[3, 9]);
        for gaps in [
            &[3, 65_533][..],
            &[3, 65_535],
            &[9, 65_528],
            &[2, 1, 65_534],
            &[3, 65_534, 1],
            &[3, 65_534, 4],
            &[3, 65_534, 8],
            &[3, 65_535, 1],
            &[3, 65_535, 2, 5],
            &[1, 65_535, 65_535, 3],
        ] {
            refused(&a(), &lone(n, &[gaps]));
            refused(&a(), &lone(n, &[&[3, 6], gaps]));
            refused(&a(), &lone(n, &[gaps, &[3, 6]]));
        }
    }
    // Of a word, where the position of its last character wraps too.
    let long = Dictionary::of([[7; 32]]);
    let of = |gaps: &[u16]| numbers(65_535, &[(Key::Word(0), gaps.to_vec())]);
    restores(&long, &of(&[4, 65_500]), &[4, 65_504]);
    refused(&long, &of(&[4, 65_501]));
    refused(&long, &of(&[4, 65_531]));
    refused(&long, &of(&[4, 65_532]));
    refused(&long, &of(&[4, 65_533]));
}

#[test]
fn sums_above_65535() {
    let n = 65_535;
    restores(&a(), &lone(n, &[&[1, n - 1]]), &[1, n]);
    restores(&a(), &lone(n, &[&[1, 32_767, 32_767]]), &[1, 32_768, n]);
    refused(&a(), &lone(n, &[&[1, n]]));
    refused(&a(), &lone(n, &[&[n, 1]]));
    refused(&a(), &lone(n, &[&[n, n]]));
    refused(&a(), &lone(n, &[&[1, 32_768, 32_767]]));
    refused(&a(), &lone(n, &[&[1, 32_768, 32_768]]));
    let mut ones = vec![1; 65_535];
    assert!(from_gaps(&a(), &lone(n, &[&ones]), 65_540).is_ok());
    for i in [0, 1, 65_534] {
        ones[i] = 2;
        refused(&a(), &lone(n, &[&ones]));
        ones[i] = 1;
    }
    refused(&a(), &lone(n, &[&vec![n; 65_535]]));
    refused(&a(), &lone(n, &[&vec![32_768; 65_535]]));
}

#[test]
fn fewer_numbers_than_a_directory() {
    neither(&a(), &[]);
    for n in [0, 6, 65_535] {
        neither(&a(), &[n]);
        for keys in [1, 2, 21_845, 21_846, 43_690, 43_691, 65_535] {
            neither(&a(), &[n, keys]);
            neither(&a(), &[n, keys, 0]);
            neither(&a(), &[n, keys, 0, 0]);
        }
    }
    for keys in [2, 3, 43_691, 65_535] {
        neither(&a(), &[6, keys, 0, 0, 1, 1]);
        neither(&a(), &[6, keys, 0, 0, 1, 1, 1]);
    }
}

#[test]
fn numbers_too_many_or_too_few() {
    let good = [9, 2, 0, 0, 2, 1, 0x78, 3, 1, 7, 1, 2, 3];
    restores(&a(), &good, &[1, 8, 1, 3, 6]);
    for length in 0..good.len() {
        neither(&a(), &good[..length]);
    }
    for more in [0, 1, 7, 65_535] {
        neither(&a(), &[&good[..], &[more]].concat());
        neither(&a(), &[&good[..], &[1, more]].concat());
        neither(&a(), &[6, 0, more]);
    }
    neither(&a(), &[6, 0, 1, 1, 1]);
    // The counts add up to the rest but for 65,536.
    neither(&a(), &[6, 2, 1, 97, 65_535, 1, 98, 1]);
    neither(&a(), &[6, 2, 1, 97, 65_535, 1, 98, 2, 1]);
    neither(&a(), &[6, 2, 1, 97, 32_768, 1, 98, 32_768]);
}

/// As many numbers as counted, but under other keys.
#[test]
fn counts_that_are_exchanged() {
    let of = |one, other| [9, 2, 1, 0x78, one, 1, 0x79, other, 1, 2, 3, 4];
    restores(&a(), &of(1, 3), &[1, 2, 5, 9]);
    restores(&a(), &of(2, 2), &[1, 3, 3, 7]);
    restores(&a(), &of(3, 1), &[1, 3, 6, 4]);
    neither(&a(), &of(0, 4));
    neither(&a(), &of(4, 0));
    neither(&a(), &of(2, 1));
    neither(&a(), &of(2, 3));
    neither(&a(), &of(3, 0));
    neither(&a(), &of(65_535, 5));
}

#[test]
fn a_directory_that_is_wrong() {
    let good = [9, 2, 0, 1, 2, 1, 0x78, 1, 1, 3, 2];
    restores(&a(), &good, &[1, 4, 2]);
    // The kinds, the values, a count; and so that the keys do not ascend.
    for (i, number) in [
        (2, 2),
        (5, 2),
        (5, 0xFFFF),
        (3, 3),
        (3, 65_535),
        (4, 0),
        (7, 0),
    ] {
        let mut gaps = good;
        gaps[i] = number;
        neither(&a(), &gaps);
    }
    neither(&a(), &[9, 2, 1, 0x78, 2, 0, 1, 1, 1, 3, 2]);
    neither(&a(), &[9, 2, 0, 1, 2, 0, 1, 1, 1, 3, 2]);
    neither(&a(), &[9, 2, 0, 2, 2, 0, 1, 1, 1, 3, 2]);
    // x is a word.
    neither(&Dictionary::spelt("ab abc x"), &good);
    neither(&Dictionary::default(), &good);
}

/// Positions that are no index's; some are the gap form of one.
#[test]
fn indexes_that_are_not_readable() {
    for positions in [
        [1, 9, 9],
        [1, 8, 4],
        [8, 4, 1],
        [0, 1, 2],
        [1, 0, 2],
        [1, 2, 10],
        [10, 11, 12],
    ] {
        assert_eq!(to_gaps(&a(), &lone(9, &[&positions]), 8), Err(5));
        assert_eq!(to_gaps(&a(), &lone(9, &[&positions]), 0), Err(5));
        assert_eq!(to_gaps(&a(), &lone(9, &[&[1], &positions]), 12), Err(5));
    }
    restores(&a(), &lone(9, &[&[4, 4, 1]]), &[4, 8, 9]);
    assert_eq!(to_gaps(&a(), &lone(9, &[&[4, 4, 1]]), 8), Err(5));
}

/// The plain reading that all is compared with, where numbers are too many or
/// too few and where sums pass 65,535.
#[test]
fn the_restored_form_of_any_numbers() {
    let stays = |numbers: &[u16]| {
        let same: Vec<u64> = numbers.iter().copied().map(u64::from).collect();
        assert_eq!(restored(numbers), same);
    };
    stays(&[]);
    stays(&[6]);
    stays(&[6, 0, 4, 5]);
    stays(&[6, 2, 1, 97, 2, 1, 98]);
    stays(&[6, 65_535, 1, 97, 2, 3, 3]);
    stays(&[6, 1, 1, 97, 0, 3, 3]);
    let restored = |numbers: &[u16]| restored(numbers)[5..].to_vec();
    assert_eq!(restored(&[6, 1, 1, 97, 2, 3, 3]), [3, 6]);
    assert_eq!(restored(&[6, 1, 1, 97, 9, 3, 3]), [3, 6]);
    assert_eq!(restored(&[6, 1, 1, 97, 2, 3, 3, 3, 4]), [3, 6, 3, 4]);
    assert_eq!(restored(&[6, 1, 1, 97, 2, 3, 65_534]), [3, 65_537]);
    assert_eq!(restored(&[6, 1, 1, 97, 3, 0, 0, 1]), [0, 0, 1]);
    let two = [6, 2, 1, 97, 2, 1, 98, 2, 3, 1, 2, 3, 9];
    assert_eq!(restored(&two), [1, 98, 2, 3, 4, 2, 5, 9]);
}
