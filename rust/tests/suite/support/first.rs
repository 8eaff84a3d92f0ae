//! The first position through the library, held to all that its definition says.

use super::call::assert_call;
use super::dictionary::Dictionary;
use super::entries::starting_up_to;
use super::oracle;

/// The library's answer: the first position found, if there is one, or the
/// number of the refusal. It is the oracle's.
#[track_caller]
pub fn first(dictionary: &Dictionary, index: &[u16], string: &[u16]) -> Result<Option<u16>, u32> {
    let expected = oracle::first(dictionary, index, string);
    assert_first(dictionary, index, string, expected);
    expected
}

/// The library gives this position, or none, or refuses. It gives the same
/// position without the entries that start behind the string laid there.
#[track_caller]
pub fn assert_first(
    dictionary: &Dictionary,
    index: &[u16],
    string: &[u16],
    expected: Result<Option<u16>, u32>,
) {
    assert_gives(dictionary, index, string, expected);
    if let Ok(Some(position)) = expected {
        let end = usize::from(position) + string.len() - 1;
        let less = starting_up_to(index, end);
        assert_gives(dictionary, &less, string, expected);
    }
}

/// The library gives this, and nothing that was lent is changed.
#[track_caller]
fn assert_gives(
    dictionary: &Dictionary,
    index: &[u16],
    string: &[u16],
    expected: Result<Option<u16>, u32>,
) {
    assert_call(
        [&dictionary.chars, &dictionary.lengths, index, string],
        [],
        expected,
        |[chars, lengths, index, string], []| mopekihua::first(chars, lengths, index, string),
    );
}
