//! The gap form and back, with admission and readability: the whole call. The
//! indexes are those of the sheets, and of the adversarial texts.

use mopekihua::Refusal;

use super::{Room, Row, print_sheets};
use crate::plain;
use crate::race::print_rates;
use crate::sheets::{Case, Sheets};

/// An operation on a dictionary and an index or its gap form, with an output lent.
type Call<R> = fn(&[u16], &[u16], &[u16], &mut [u16]) -> Result<usize, R>;

/// From how many characters on a sheet is long.
const LONG: usize = 30_000;

pub fn print_to(sheets: &Sheets) {
    print(
        sheets,
        Case::indexes,
        mopekihua::to_gaps_into,
        plain::gaps::to_gaps,
    );
}

pub fn print_from(sheets: &Sheets) {
    print(
        sheets,
        Case::gap_forms,
        mopekihua::from_gaps_into,
        plain::gaps::from_gaps,
    );
}

fn print(
    sheets: &Sheets,
    inputs: fn(&Case) -> Vec<Vec<u16>>,
    proved: Call<Refusal>,
    plain: Call<u32>,
) {
    let print_row = |name: &str, case: &Case, ordinary| {
        let Case { chars, lengths, .. } = case;
        let inputs = inputs(case);
        let longest = inputs.iter().map(Vec::len).max().unwrap_or(0);
        let room = Room {
            output: vec![0; longest],
            work: Vec::new(),
        };
        let row = Row::of_sheets(name, case, &inputs, ordinary, room);
        let times = row.print_race(
            |index, room| proved(chars, lengths, index, &mut room.output).map_err(Refusal::number),
            |index, room| plain(chars, lengths, index, &mut room.output),
        );
        if ordinary.is_none() && case.longest() >= LONG {
            print_rates(times, 2 * inputs.iter().map(Vec::len).sum::<usize>());
        }
        times.proved / row.chars as f64
    };
    print_sheets(sheets, print_row);
    let (name, many) = &sheets.many;
    print_row(name, many, None);
}
