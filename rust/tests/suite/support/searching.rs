//! Search and the cut-down index through the library, which are called alike,
//! held to all that their definitions say.

use mopekihua::Refusal;

use super::call::{Written, assert_call};
use super::dictionary::Dictionary;
use super::first::assert_first;
use super::oracle;
use super::text::spelt;

/// `search_into` or `cut_into`.
type Call = fn(&[u16], &[u16], &[u16], &[u16], &mut [u16]) -> Result<usize, Refusal>;

/// The library's answer for an output of this length: the positions found, or
/// the number of the refusal. It is the oracle's.
#[track_caller]
pub fn search(
    dictionary: &Dictionary,
    index: &[u16],
    string: &[u16],
    output_len: usize,
) -> Result<Vec<u16>, u32> {
    let expected = oracle::answer(dictionary, index, string, output_len, oracle::find);
    assert_finds(dictionary, index, string, output_len, as_slice(&expected));
    expected
}

/// The same for the cut-down index.
#[track_caller]
pub fn cut(
    dictionary: &Dictionary,
    index: &[u16],
    string: &[u16],
    output_len: usize,
) -> Result<Vec<u16>, u32> {
    let expected = oracle::answer(dictionary, index, string, output_len, oracle::cut_down);
    let lent = [&dictionary.chars, &dictionary.lengths, index, string];
    assert_answers(mopekihua::cut_into, lent, output_len, as_slice(&expected));
    expected
}

fn as_slice(answer: &Result<Vec<u16>, u32>) -> Result<&[u16], u32> {
    answer.as_deref().map_err(|&number| number)
}

/// The library finds these positions or refuses. The first of them is what it
/// gives where only that is asked for, which no output is too short for.
#[track_caller]
pub fn assert_finds(
    dictionary: &Dictionary,
    index: &[u16],
    string: &[u16],
    output_len: usize,
    expected: Result<&[u16], u32>,
) {
    let lent = [&dictionary.chars, &dictionary.lengths, index, string];
    assert_answers(mopekihua::search_into, lent, output_len, expected);
    if expected != Err(8) {
        let head = expected.map(|positions| positions.first().copied());
        assert_first(dictionary, index, string, head);
    }
}

/// The library gives these numbers or refuses. They stand in front of what the
/// output held, or nothing of that is changed.
#[track_caller]
fn assert_answers(call: Call, lent: [&[u16]; 4], output_len: usize, expected: Result<&[u16], u32>) {
    let output = Written::Output(output_len, expected.unwrap_or_default());
    assert_call(
        lent,
        [output],
        expected.map(<[u16]>::len),
        |[chars, lengths, index, string], [output]| call(chars, lengths, index, string, output),
    );
}

/// Dictionaries, indexes, strings and outputs that meet each number, put
/// together in all ways: the first number in the order of the tests is answered.
/// `size` numbers are just enough for the answer to ab in the index of abcdab.
#[track_caller]
pub fn assert_first_number(
    answer: impl Fn(&Dictionary, &[u16], &[u16], usize) -> Result<Vec<u16>, u32>,
    size: usize,
) {
    for_good_and_refused(|dictionary, index, string, refused| {
        for (len, refused_output) in [(size, None), (size - 1, Some(8)), (0, Some(8))] {
            let answer = answer(dictionary, index, string, len);
            assert_eq!(answer.err(), refused.or(refused_output));
        }
    });
}

/// Dictionaries, indexes and strings, good ones and some for each number that
/// refuses one, put together in all ways, each with the first number in the order
/// of the tests.
pub fn for_good_and_refused(mut lend: impl FnMut(&Dictionary, &[u16], &[u16], Option<u32>)) {
    let abcdab: &[u16] = &[6, 3, 0, 0, 1, 0, 1, 1, 0, 2, 1, 5, 1, 2];
    let long = "a".repeat(257);
    for (dictionary, refused_dictionary) in &Dictionary::good_and_refused() {
        for (index, refused_index) in [(abcdab, None), (&abcdab[1..], Some(5)), (&[], Some(5))] {
            for (string, refused_string) in [("ab", None), ("", Some(6)), (&long, Some(6))] {
                let refused = refused_dictionary.or(refused_index).or(refused_string);
                lend(dictionary, index, &spelt(string), refused);
            }
        }
    }
}
