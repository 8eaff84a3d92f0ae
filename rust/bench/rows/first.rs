//! The first position, and after each ordinary row what it takes beside the
//! whole search for the same strings, both with the index already tested.

use std::hint::black_box;

use mopekihua::Refusal;

use super::strings::Operation;
use crate::plain;
use crate::race::{best_of, print_beside};
use crate::sheets::{Case, Search, Sheets};

pub fn print(sheets: &Sheets) {
    let first = Operation {
        proved: |chars, lengths, index, string, _| first(chars, lengths, index, string),
        plain: |query, _| plain::first::first(query),
        beside: print_beside_search,
    };
    first.print(sheets);
    let (name, largest) = &sheets.sizes[sheets.sizes.len() - 1];
    for (low, high) in [(2, 12), (50, 256)] {
        let strings = format!("{name}, strings of {low} to {high}");
        let near = largest.searches_in(low, high, 10);
        first.print_row(&format!("{strings}, first tenth"), largest, &near, None);
        let none = largest.searches_for_none(low, high);
        first.print_row(&format!("{strings}, not found"), largest, &none, None);
    }
}

/// The position, or 0 where there is none.
fn first(chars: &[u16], lengths: &[u16], index: &[u16], string: &[u16]) -> Result<usize, Refusal> {
    let position = mopekihua::first(chars, lengths, index, string)?;
    Ok(position.map_or(0, usize::from))
}

/// The search finds the same position first.
fn print_beside_search(case: &Case, searches: &[Search]) {
    let Case { chars, lengths, .. } = case;
    let indexes = case.indexes();
    let mut output = vec![0; 65_535];
    let found = |one: &Search| first(chars, lengths, &indexes[one.text], &one.string);
    for one in searches {
        let all = mopekihua::search(chars, lengths, &indexes[one.text], &one.string);
        let head = all.map(|all| all.first().copied().map_or(0, usize::from));
        assert_eq!(found(one), head);
    }
    let [first, search, tests] = best_of([
        &mut || {
            for one in black_box(searches) {
                let _ = black_box(found(one));
            }
        },
        &mut || {
            for one in black_box(searches) {
                let index = &indexes[one.text];
                let output = &mut output;
                let answer = mopekihua::search_into(chars, lengths, index, &one.string, output);
                let _ = black_box(answer);
            }
        },
        &mut || {
            for one in black_box(searches) {
                let index = &indexes[one.text];
                let answer = mopekihua::search_into(chars, lengths, index, &[], &mut []);
                assert_eq!(black_box(answer), Err(Refusal::StringLengthWrong));
            }
        },
    ]);
    let name = "beside the whole search, index already tested";
    print_beside(name, first - tests, search - tests, searches.len());
}
