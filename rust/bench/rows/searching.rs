//! Search, and for information after each row how long a scan of the text takes
//! where that is at hand.

use std::hint::black_box;

use super::strings::Operation;
use crate::plain;
use crate::race::{best, print_information};
use crate::sheets::{Case, Search, Sheets};

pub fn print(sheets: &Sheets) {
    let search = Operation {
        proved: mopekihua::search_into,
        plain: plain::searching::search,
        beside: print_scan,
    };
    search.print(sheets);
}

/// The scan finds what the search does.
fn print_scan(case: &Case, searches: &[Search]) {
    let Case {
        chars,
        lengths,
        texts,
    } = case;
    let indexes = case.indexes();
    let mut output = vec![0; 65_535];
    for Search { text, string } in searches {
        let count = scan(&texts[*text], string, &mut output);
        let found = mopekihua::search(chars, lengths, &indexes[*text], string);
        assert_eq!(found.as_deref(), Ok(&output[..count]));
    }
    let time = best(&mut || {
        for Search { text, string } in black_box(searches) {
            black_box(scan(&texts[*text], string, &mut output));
        }
    });
    print_information("a scan of the text", time, searches.len());
}

/// Writes the positions at which the string stands in the text, and answers how
/// many these are.
fn scan(text: &[u16], string: &[u16], output: &mut [u16]) -> usize {
    let mut count = 0;
    for (window, position) in text.windows(string.len()).zip(1..=u16::MAX) {
        if window == string {
            output[count] = position;
            count += 1;
        }
    }
    count
}
