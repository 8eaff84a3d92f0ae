//! Reading of an index through the library, held to all that its definition
//! says.

use super::call::assert_call;
use super::dictionary::Dictionary;
use super::oracle;

/// The library's tally, or the number of the refusal. It is the oracle's, and
/// nothing that was lent is changed.
#[track_caller]
pub fn tally(dictionary: &Dictionary, index: &[u16]) -> Result<([u64; 32], usize), u32> {
    let Dictionary { chars, lengths } = dictionary;
    let expected = oracle::tally(chars, lengths, index);
    assert_call(
        [chars, lengths, index],
        [],
        expected,
        |[chars, lengths, index], []| {
            mopekihua::tally(chars, lengths, index).map(|tally| (tally.by_length, tally.count))
        },
    );
    expected
}
