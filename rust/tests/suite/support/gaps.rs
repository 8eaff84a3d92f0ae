//! Gap forms through the library, there and back, held to all that their
//! definitions say.

use mopekihua::Refusal;

use super::call::{Written, assert_call};
use super::dictionary::Dictionary;
use super::oracle;

/// `to_gaps_into` or `from_gaps_into`.
type Call = fn(&[u16], &[u16], &[u16], &mut [u16]) -> Result<usize, Refusal>;

/// The library's answer for an output of this length: the gap form, or the
/// number of the refusal. It is the oracle's, and the index is restored from it.
#[track_caller]
pub fn to_gaps(dictionary: &Dictionary, index: &[u16], output_len: usize) -> Result<Vec<u16>, u32> {
    let expected = oracle::to_gaps(dictionary, index, output_len);
    assert_gives(
        mopekihua::to_gaps_into,
        dictionary,
        index,
        output_len,
        as_slice(&expected),
    );
    if let Ok(gaps) = &expected {
        let back = mopekihua::from_gaps_into;
        assert_gives(back, dictionary, gaps, index.len(), Ok(index));
    }
    expected
}

/// The library's answer for an output of this length: the index restored, or the
/// number of the refusal. It is the oracle's, and has this gap form.
#[track_caller]
pub fn from_gaps(
    dictionary: &Dictionary,
    gaps: &[u16],
    output_len: usize,
) -> Result<Vec<u16>, u32> {
    let expected = oracle::from_gaps(dictionary, gaps, output_len);
    assert_gives(
        mopekihua::from_gaps_into,
        dictionary,
        gaps,
        output_len,
        as_slice(&expected),
    );
    if let Ok(index) = &expected {
        let back = mopekihua::to_gaps_into;
        assert_gives(back, dictionary, index, gaps.len(), Ok(gaps));
    }
    expected
}

fn as_slice(answer: &Result<Vec<u16>, u32>) -> Result<&[u16], u32> {
    answer.as_deref().map_err(|&number| number)
}

/// The library gives these numbers or refuses. They stand in front of what the
/// output held, or nothing of that is changed.
#[track_caller]
fn assert_gives(
    call: Call,
    dictionary: &Dictionary,
    numbers: &[u16],
    output_len: usize,
    expected: Result<&[u16], u32>,
) {
    assert_call(
        [&dictionary.chars, &dictionary.lengths, numbers],
        [Written::Output(output_len, expected.unwrap_or_default())],
        expected.map(<[u16]>::len),
        |[chars, lengths, numbers], [output]| call(chars, lengths, numbers, output),
    );
}
