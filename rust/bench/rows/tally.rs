//! Readability and the tally, with admission. The indexes are those of the
//! sheets, and of the adversarial texts.

use mopekihua::Refusal;

use super::{Room, Row, print_sheets};
use crate::plain;
use crate::sheets::{Case, Sheets};

/// Readability has no call of its own: a search for an empty string ends after
/// the tests of dictionary and index.
pub fn print_readability(sheets: &Sheets) {
    print_sheets(sheets, |name, case, ordinary| {
        let Case { chars, lengths, .. } = case;
        Row::of_sheets(name, case, &case.indexes(), ordinary, Room::default()).print(
            |index, _| {
                let answer = mopekihua::search_into(chars, lengths, index, &[], &mut []);
                match answer {
                    Err(Refusal::StringLengthWrong) => Ok(()),
                    other => other.map(drop).map_err(Refusal::number),
                }
            },
            |index, _| plain::readability::admit_index(chars, lengths, index),
        )
    });
}

pub fn print(sheets: &Sheets) {
    print_sheets(sheets, |name, case, ordinary| {
        let Case { chars, lengths, .. } = case;
        Row::of_sheets(name, case, &case.indexes(), ordinary, Room::default()).print(
            |index, _| {
                mopekihua::tally(chars, lengths, index)
                    .map(|tally| (tally.by_length, tally.count))
                    .map_err(Refusal::number)
            },
            |index, _| plain::readability::tally(chars, lengths, index),
        )
    });
}
