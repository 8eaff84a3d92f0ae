//! What the gap form is for: how many bytes it takes beside the index where small
//! numbers take fewer bytes. Unpacked both take two a number. Nothing is timed.

use crate::sheets::{Case, Sheets};

pub fn print(sheets: &Sheets) {
    println!(
        "  {:<56} {:>11} {:>11} {:>6} {:>8}",
        "bytes a sheet, 7 bits of a number a byte", "gaps", "positions", "ratio", "unpacked"
    );
    for (name, case) in sheets.sizes.iter().chain([&sheets.full_width]) {
        print_row(name, case);
    }
}

fn print_row(name: &str, case: &Case) {
    let sheets = case.texts.len();
    let indexes = case.indexes();
    let positions: usize = indexes.iter().map(|index| packed(index)).sum();
    let gaps: usize = case.gap_forms().iter().map(|gaps| packed(gaps)).sum();
    let numbers: usize = indexes.iter().map(Vec::len).sum();
    println!(
        "  {name:<56} {:>11} {:>11} {:>6.2} {:>8}",
        gaps / sheets,
        positions / sheets,
        gaps as f64 / positions as f64,
        2 * numbers / sheets,
    );
}

/// How many bytes these numbers take with 7 bits a byte.
fn packed(numbers: &[u16]) -> usize {
    let bytes = |&number: &u16| match number {
        0..128 => 1,
        128..16_384 => 2,
        _ => 3,
    };
    numbers.iter().map(bytes).sum()
}
