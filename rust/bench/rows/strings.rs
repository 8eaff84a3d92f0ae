//! The rows of an operation on an index and a string: the whole call with
//! admission and readability, and what it takes beyond these. Strings are cut
//! from the texts; over the adversarial ones they are of 256 characters, and for
//! some of them short ones too.

use std::hint::black_box;

use mopekihua::Refusal;

use super::{Room, Row};
use crate::adversary::{self, Adversary};
use crate::plain::Query;
use crate::race::{Race, best_of, print_row};
use crate::sheets::{Case, Search, Sheets};

/// An operation of the library.
type Proved = fn(&[u16], &[u16], &[u16], &[u16], &mut [u16]) -> Result<usize, Refusal>;

/// The same in plain Rust.
type Plain = fn(Query, &mut [u16]) -> Result<usize, u32>;

/// An operation, and what follows a row of it.
pub struct Operation {
    pub proved: Proved,
    pub plain: Plain,
    pub beside: fn(&Case, &[Search]),
}

impl Operation {
    pub fn print(&self, sheets: &Sheets) {
        let print_sizes = |low, high| {
            let mut largest = 0.0;
            for (name, case) in &sheets.sizes {
                let name = format!("{name}, strings of {low} to {high}");
                largest = self.print_row(&name, case, &case.searches(low, high), None);
            }
            largest
        };
        let short = print_sizes(2, 12);
        print_sizes(50, 256);
        let (_, largest) = &sheets.sizes[sheets.sizes.len() - 1];
        let name = "about 60,000 characters, strings of 256";
        let long = self.print_row(name, largest, &largest.searches(256, 256), None);
        let (name, pipes) = &sheets.full_width;
        let name = format!("{name}, strings of 2 to 12");
        self.print_row(&name, pipes, &pipes.searches(2, 12), None);
        for adversary in &adversary::cases() {
            let Adversary { name, case, .. } = adversary;
            for &(low, high) in adversary.short {
                let name = match high - low {
                    0 => format!("{name}, {low}"),
                    _ => format!("{name}, {low} to {high}"),
                };
                self.print_row(&name, case, &case.searches(low, high), Some(short));
            }
            let name = format!("{name}, 256");
            self.print_row(&name, case, &case.searches(256, 256), Some(long));
        }
    }

    /// Prints the row for these strings and what follows it, and answers the
    /// cost of a character in nanoseconds.
    pub fn print_row(
        &self,
        name: &str,
        case: &Case,
        searches: &[Search],
        ordinary: Option<f64>,
    ) -> f64 {
        let indexes = case.indexes();
        // At most n positions are found, and a cut-down index is no longer than
        // the index.
        let longest = indexes.iter().map(Vec::len).max().unwrap_or(0);
        let row = Row {
            name,
            inputs: searches,
            chars: searches.iter().map(|one| case.texts[one.text].len()).sum(),
            ordinary,
            room: Room {
                output: vec![0; longest.max(65_535)],
                work: Vec::new(),
            },
        };
        let proved = |search: &Search, room: &mut Room| {
            let query = query(case, &indexes, search);
            let (index, string) = (query.index, query.string);
            (self.proved)(query.chars, query.lengths, index, string, &mut room.output)
                .map_err(Refusal::number)
        };
        let plain = |search: &Search, room: &mut Room| {
            (self.plain)(query(case, &indexes, search), &mut room.output)
        };
        let (mut room, mut plain_room) = row.compare(proved, plain);
        let [whole, plain_whole, tests, plain_tests] = best_of([
            &mut || {
                for search in black_box(searches) {
                    let _ = black_box(proved(search, &mut room));
                }
            },
            &mut || {
                for search in black_box(searches) {
                    let _ = black_box(plain(search, &mut plain_room));
                }
            },
            &mut || self.test(case, &indexes, searches),
            &mut || self.test_plainly(case, &indexes, searches),
        ]);
        row.print_times(Race {
            proved: whole,
            plain: plain_whole,
        });
        if ordinary.is_none() {
            let rest = Race {
                proved: whole - tests,
                plain: plain_whole - plain_tests,
            };
            let name = "    index already tested";
            print_row(name, rest, searches.len(), row.chars, None);
        }
        (self.beside)(case, searches);
        whole / row.chars as f64
    }

    /// The same calls with an empty string, which end after the tests of
    /// dictionary and index.
    fn test(&self, case: &Case, indexes: &[Vec<u16>], searches: &[Search]) {
        for search in black_box(searches) {
            let Query {
                chars,
                lengths,
                index,
                ..
            } = query(case, indexes, search);
            let answer = (self.proved)(chars, lengths, index, &[], &mut []);
            assert_eq!(black_box(answer), Err(Refusal::StringLengthWrong));
        }
    }

    /// The same in plain Rust.
    fn test_plainly(&self, case: &Case, indexes: &[Vec<u16>], searches: &[Search]) {
        for search in black_box(searches) {
            let query = Query {
                string: &[],
                ..query(case, indexes, search)
            };
            assert_eq!(black_box((self.plain)(query, &mut [])), Err(6));
        }
    }
}

/// What a search is handed.
fn query<'a>(case: &'a Case, indexes: &'a [Vec<u16>], search: &'a Search) -> Query<'a> {
    Query {
        chars: &case.chars,
        lengths: &case.lengths,
        index: &indexes[search.text],
        string: &search.string,
    }
}
