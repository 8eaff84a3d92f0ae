//! Building through the library, held to all that its definition says.

use super::call::{Written, assert_call};
use super::dictionary::Dictionary;
use super::oracle;

/// How much is lent to write to.
#[derive(Clone, Copy, Debug)]
pub struct Room {
    pub output: usize,
    pub work: usize,
}

impl Room {
    /// Enough for every text of this length, and some more.
    pub fn ample(n: usize) -> Room {
        Room {
            output: mopekihua::index_bound(n) + 7,
            work: 8 * n + 7,
        }
    }
}

/// The library's answer: the index, or the number of the refusal. It is the
/// oracle's.
#[track_caller]
pub fn build(dictionary: &Dictionary, text: &[u16], room: Room) -> Result<Vec<u16>, u32> {
    let Dictionary { chars, lengths } = dictionary;
    let expected = oracle::build(chars, lengths, text, room.output, room.work);
    assert_builds(
        dictionary,
        text,
        room,
        expected.as_deref().map_err(|&number| number),
    );
    expected
}

/// The library gives this index or refusal. The index stands in front of what
/// the output held, or nothing of that is changed; the work slice is all zeros.
#[track_caller]
pub fn assert_builds(
    dictionary: &Dictionary,
    text: &[u16],
    room: Room,
    expected: Result<&[u16], u32>,
) {
    assert_call(
        [&dictionary.chars, &dictionary.lengths, text],
        [
            Written::Output(room.output, expected.unwrap_or_default()),
            Written::Work(room.work),
        ],
        expected.map(<[u16]>::len),
        |[chars, lengths, text], [output, work]| {
            mopekihua::build_into(chars, lengths, text, output, work)
        },
    );
}
