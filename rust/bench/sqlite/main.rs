//! The library beside SQLite's FTS5 with the trigram tokenizer, the index that
//! many would take for text without spaces: build time, size and search time on
//! the same sheets, for information.
//!
//! Ours is one index a sheet, and each call admits the dictionary and reads the
//! index anew. SQLite holds the sheets of a size in one table in memory, with
//! statements prepared beforehand. It finds strings of 3 characters and more, and
//! says which sheets have them; for the positions the text is kept and scanned.

// The other rows use more of the sheets, and the tests of the generator.
#[allow(dead_code)]
#[path = "../sheets.rs"]
mod sheets;

#[allow(dead_code)]
#[path = "../../tests/suite/support/random.rs"]
mod random;

mod library;
mod table;

use std::hint::black_box;
use std::time::{Duration, Instant};

use library::Sqlite;
use sheets::{Case, Search, Sheets};
use table::Table;

/// How long each time is tried, and how often at least.
const BUDGET: Duration = Duration::from_millis(500);
const ROUNDS: usize = 7;

fn main() {
    let Some(sqlite) = Sqlite::load() else {
        println!("skipped: SQLite is not installed, so it is not timed beside the library");
        return;
    };
    if let Err(message) = Table::new(sqlite) {
        let version = sqlite.version();
        println!("skipped: SQLite {version} makes no trigram table: {message}");
        return;
    }
    println!(
        "beside SQLite {} FTS5 trigram, for information: a table in memory;",
        sqlite.version()
    );
    println!("positions come from a scan of the row that it names, since it answers rows;");
    println!("strings of fewer than 3 characters it does not find");
    let sheets = Sheets::new();
    let (_, first) = &sheets.sizes[0];
    println!(
        "the dictionary, which all sheets share, has {} bytes",
        2 * (first.chars.len() + first.lengths.len())
    );
    println!(
        "{:<58} {:>11} {:>11} {:>6}",
        "", "proved", "SQLite", "ratio"
    );
    for (name, case) in &sheets.sizes {
        println!("{name}, a sheet");
        print_case(case, sqlite);
    }
}

fn print_case(case: &Case, sqlite: Sqlite) {
    let count = case.texts.len() as f64;
    let texts: Vec<String> = case.texts.iter().map(|text| string(text)).collect();
    print_times(
        "build",
        build_time(case) / count,
        time(|| new_table(sqlite), |table| table.add(&texts)) / count,
    );

    let indexes = case.indexes();
    let numbers: usize = indexes.iter().map(Vec::len).sum();
    let table = new_table(sqlite);
    table.add(&texts);
    table.optimize();
    let ours = 2.0 * numbers as f64 / count;
    print_sizes("index", ours, table.index_bytes() as f64 / count);
    let with_text = table.index_bytes() + table.text_bytes();
    print_sizes(
        "index, and the text where positions need it",
        ours,
        with_text as f64 / count,
    );

    for (low, high) in [(3, 12), (50, 256)] {
        let searches = case.searches(low, high);
        print_searches(
            &format!("{low} to {high}"),
            case,
            &indexes,
            &searches,
            &table,
        );
    }
}

fn new_table(sqlite: Sqlite) -> Table {
    Table::new(sqlite).expect("one was made before")
}

/// The time to build the index of each sheet, in nanoseconds.
fn build_time(case: &Case) -> f64 {
    let longest = case.texts.iter().map(Vec::len).max().unwrap_or(0);
    let output = vec![0; mopekihua::index_bound(longest)];
    let work = vec![0; mopekihua::work_needed(longest)];
    time(
        || (output.clone(), work.clone()),
        |(output, work)| {
            for text in &case.texts {
                let work = &mut work[..mopekihua::work_needed(text.len())];
                let built = mopekihua::build_into(&case.chars, &case.lengths, text, output, work);
                assert!(black_box(built).is_ok());
            }
        },
    )
}

/// Both find the same positions; then both are timed.
fn print_searches(
    lengths: &str,
    case: &Case,
    indexes: &[Vec<u16>],
    searches: &[Search],
    table: &Table,
) {
    let strings: Vec<String> = searches.iter().map(|one| string(&one.string)).collect();
    let mut search = table.search();
    for (one, string) in searches.iter().zip(&strings) {
        let index = &indexes[one.text];
        let found = mopekihua::search(&case.chars, &case.lengths, index, &one.string);
        assert_eq!(found, Ok(search.positions(one.text, string)));
        assert!(search.has(one.text, string));
    }
    let count = searches.len() as f64;
    let ours = time(
        || vec![0; 65_535],
        |output| {
            for Search { text, string } in black_box(searches) {
                let index = &indexes[*text];
                let found =
                    mopekihua::search_into(&case.chars, &case.lengths, index, string, output);
                assert!(black_box(found).is_ok());
            }
        },
    );
    let asked = || searches.iter().map(|one| one.text).zip(&strings);
    let positions = time(
        || (),
        |()| {
            for (sheet, string) in black_box(asked()) {
                black_box(search.positions(sheet, string));
            }
        },
    );
    let sheets = time(
        || (),
        |()| {
            for (sheet, string) in black_box(asked()) {
                black_box(search.has(sheet, string));
            }
        },
    );
    let name = format!("positions of strings of {lengths}");
    print_times(&name, ours / count, positions / count);
    let name = "the same, SQLite only whether there is one";
    print_times(name, ours / count, sheets / count);
}

/// The best time of a run in nanoseconds; making what it runs on is not timed.
fn time<T>(make: impl Fn() -> T, mut run: impl FnMut(&mut T)) -> f64 {
    let begun = Instant::now();
    let mut best = f64::INFINITY;
    let mut round = 0;
    while round < ROUNDS || begun.elapsed() < BUDGET {
        let mut made = make();
        let started = Instant::now();
        run(&mut made);
        best = best.min(started.elapsed().as_nanos() as f64);
        round += 1;
    }
    best
}

/// The sheets have no character above U+FFFF.
fn string(characters: &[u16]) -> String {
    mopekihua::string_of(characters).expect("characters of strings")
}

/// Times of one call in nanoseconds.
fn print_times(name: &str, proved: f64, sqlite: f64) {
    let shown = |time: f64| format!("{:.2} µs", time / 1_000.0);
    print_row(name, shown(proved), shown(sqlite), proved / sqlite);
}

/// Bytes of one sheet.
fn print_sizes(name: &str, proved: f64, sqlite: f64) {
    let shown = |bytes: f64| format!("{bytes:.0} B");
    print_row(name, shown(proved), shown(sqlite), proved / sqlite);
}

/// The ratio is ours to SQLite's.
fn print_row(name: &str, proved: String, sqlite: String, ratio: f64) {
    println!("  {name:<56} {proved:>11} {sqlite:>11} {ratio:>6.2}");
}
