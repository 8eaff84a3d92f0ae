//! Reception and recovery, with admission and readability: the whole call. The
//! indexes are those of the sheets, and of the adversarial texts.

use mopekihua::Refusal;

use super::{Room, Row, print_sheets};
use crate::plain;
use crate::sheets::{Case, Sheets};

/// An operation on a dictionary and an index, with an output and work space
/// lent. Reception leaves the output alone.
type Call<R> = fn(&[u16], &[u16], &[u16], &mut [u16], &mut [u16]) -> Result<usize, R>;

pub fn print_receive(sheets: &Sheets) {
    print(
        sheets,
        |chars, lengths, index, _, work| mopekihua::receive_with(chars, lengths, index, work),
        |chars, lengths, index, _, work| plain::reception::receive(chars, lengths, index, work),
    );
}

pub fn print_recover(sheets: &Sheets) {
    print(sheets, mopekihua::recover_into, plain::reception::recover);
}

fn print(sheets: &Sheets, proved: Call<Refusal>, plain: Call<u32>) {
    print_sheets(sheets, |name, case, ordinary| {
        let Case { chars, lengths, .. } = case;
        let room = Room::new(case.longest(), case);
        Row::of_sheets(name, case, &case.indexes(), ordinary, room).print(
            |index, Room { output, work }| {
                let work = work_for(index, work);
                proved(chars, lengths, index, output, work).map_err(Refusal::number)
            },
            |index, Room { output, work }| {
                plain(chars, lengths, index, output, work_for(index, work))
            },
        )
    });
}

/// The work space that the index asks for, and no more.
fn work_for<'a>(index: &[u16], work: &'a mut [u16]) -> &'a mut [u16] {
    &mut work[..8 * usize::from(index[0])]
}
