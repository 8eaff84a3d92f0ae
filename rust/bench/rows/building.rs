//! Building, with admission: the whole call.

use super::{Room, Row, print_sheets};
use crate::plain;
use crate::sheets::{Case, Sheets};

pub fn print(sheets: &Sheets) {
    print_sheets(sheets, print_case);
}

fn print_case(name: &str, case: &Case, ordinary: Option<f64>) -> f64 {
    let Case { chars, lengths, .. } = case;
    let room = Room::new(mopekihua::index_bound(case.longest()), case);
    let row = Row::of_sheets(name, case, &case.texts, ordinary, room);
    // Each sheet is lent the work space that it asks for, and no more.
    row.print(
        |text, Room { output, work }| {
            let work = &mut work[..8 * text.len()];
            mopekihua::build_into(chars, lengths, text, output, work)
                .map_err(mopekihua::Refusal::number)
        },
        |text, Room { output, work }| {
            let work = &mut work[..8 * text.len()];
            plain::building::build(chars, lengths, text, output, work)
        },
    )
}
