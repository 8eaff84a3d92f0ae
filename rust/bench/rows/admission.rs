//! Admission of the ordinary dictionary, and of the adversarial ones.

use super::{Room, Row};
use crate::adversary::{self, Adversary};
use crate::plain;
use crate::sheets::{Case, Sheets};

pub fn print(sheets: &Sheets) {
    let (_, ordinary) = &sheets.sizes[0];
    let cost = print_case("4,096 Japanese words", ordinary, None);
    let mut last = 0;
    for Adversary { name, case, .. } in &adversary::cases() {
        // Several inputs have the same dictionary.
        if case.lengths.len() >= 2_000 && case.chars.len() != last {
            last = case.chars.len();
            let name = name.split(';').next().unwrap_or(name);
            print_case(name, case, Some(cost));
        }
    }
}

fn print_case(name: &str, case: &Case, ordinary: Option<f64>) -> f64 {
    let row = Row {
        name,
        inputs: std::slice::from_ref(case),
        chars: case.chars.len(),
        ordinary,
        room: Room::default(),
    };
    row.print(
        |case, _| mopekihua::admit(&case.chars, &case.lengths).map_err(mopekihua::Refusal::number),
        |case, _| plain::admission::admit(&case.chars, &case.lengths),
    )
}
