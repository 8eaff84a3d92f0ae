//! Times every operation of the library beside the same algorithm in plain
//! Rust, in one run, and prints the two best times of a call and their ratio.
//!
//! Ordinary rows are sheets of Japanese-like text with a dictionary of 4,096
//! words, from a seeded generator; one has a pipe size in full-width forms after
//! each word. Adversarial rows are the inputs on which a
//! careless algorithm gets slow; their last column says how much a character
//! costs there beside an ordinary one. A line that starts with "beside" has
//! another operation of the library in the column of plain Rust. Below the long
//! sheets of `to_gaps` and `from_gaps` stands how many bytes of index a second
//! that is.
//!
//! Operations named on the command line are timed, or all:
//! `cargo bench --bench speed -- build`.

mod adversary;
mod plain;
mod race;
mod rows;
mod sheets;

// The tests use more of the generator.
#[allow(dead_code)]
#[path = "../tests/suite/support/random.rs"]
mod random;

use sheets::Sheets;

/// Prints the rows of an operation.
type Print = fn(&Sheets);

/// The name of each operation, and its rows; `packing` prints sizes.
const OPERATIONS: &[(&str, Print)] = &[
    ("admission", rows::admission::print),
    ("build", rows::building::print),
    ("readability", rows::tally::print_readability),
    ("tally", rows::tally::print),
    ("receive", rows::reception::print_receive),
    ("recover", rows::reception::print_recover),
    ("search", rows::searching::print),
    ("first", rows::first::print),
    ("cut", rows::cutting::print),
    ("to_gaps", rows::gaps::print_to),
    ("from_gaps", rows::gaps::print_from),
    ("packing", rows::packing::print),
];

fn main() {
    // Cargo adds `--bench`.
    let named: Vec<String> = std::env::args()
        .skip(1)
        .filter(|argument| !argument.starts_with("--"))
        .collect();
    let sheets = Sheets::new();
    race::print_head();
    for (name, print) in OPERATIONS {
        if named.is_empty() || named.iter().any(|one| one == name) {
            println!("{name}");
            print(&sheets);
        }
    }
}
