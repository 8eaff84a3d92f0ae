//! Reception and recovery through the library, held to all that their
//! definitions say.

use super::building::Room;
use super::call::{Written, assert_call};
use super::dictionary::Dictionary;
use super::oracle;

/// The library's answer to recovery: the text, or the number of the refusal. It
/// is the oracle's, and so is that to reception.
#[track_caller]
pub fn recover(dictionary: &Dictionary, index: &[u16], room: Room) -> Result<Vec<u16>, u32> {
    let received = oracle::receive(dictionary, index, room.work);
    let text = received.as_deref().map_err(|&number| number);
    assert_receives(dictionary, index, room, text);
    received.and_then(|text| oracle::put(text, room.output))
}

/// Reception answers the length of this text or this refusal. So does recovery,
/// which writes the text to the front of the output, or where that is shorter
/// answers 8 and leaves it; both clear the work slice.
#[track_caller]
pub fn assert_receives(
    dictionary: &Dictionary,
    index: &[u16],
    room: Room,
    expected: Result<&[u16], u32>,
) {
    let read = [&dictionary.chars, &dictionary.lengths, index];
    assert_call(
        read,
        [Written::Work(room.work)],
        expected.map(<[u16]>::len),
        |[chars, lengths, index], [work]| mopekihua::receive_with(chars, lengths, index, work),
    );
    let recovered = match expected {
        Ok(text) if room.output < text.len() => Err(8),
        other => other,
    };
    let output = Written::Output(room.output, recovered.unwrap_or_default());
    assert_call(
        read,
        [output, Written::Work(room.work)],
        recovered.map(<[u16]>::len),
        |[chars, lengths, index], [output, work]| {
            mopekihua::recover_into(chars, lengths, index, output, work)
        },
    );
}
