//! The cut-down index.

use super::strings::Operation;
use crate::plain;
use crate::sheets::Sheets;

pub fn print(sheets: &Sheets) {
    let cut = Operation {
        proved: mopekihua::cut_into,
        plain: plain::cutting::cut,
        beside: |_, _| (),
    };
    cut.print(sheets);
}
