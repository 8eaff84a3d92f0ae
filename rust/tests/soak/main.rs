//! Random calls of all operations, compared with the plain reading of the
//! definitions: the whole answer of the C function, every number written, every
//! number of the work slice, and what lies beside each slice. Half of the calls
//! are lent damaged input.
//!
//! `make soak` makes a million calls with a new seed, the gate some thousand with
//! the same one. Each call is drawn from the seed and its own number, so one
//! that fails can be made again alone. The environment says which:
//! `MOPEKIHUA_SOAK` how many calls, `MOPEKIHUA_SOAK_SEED` the seed,
//! `MOPEKIHUA_SOAK_FIRST` the number of the first call.

mod call;
mod draw;
mod operation;
mod record;

// The library's C functions as the crate declares them.
#[allow(dead_code)]
#[path = "../../src/ffi.rs"]
mod ffi;

// The other tests use more of it.
#[allow(dead_code, unused_imports)]
#[path = "../suite/support/mod.rs"]
mod support;

use std::env;
use std::time::Instant;

use mopekihua::{Refusal, Tally};
use record::Record;
use support::random::Random;

/// The calls that the gate makes.
const SOME: u64 = 20_000;

fn main() {
    if !is_asked_for() {
        return;
    }
    let calls = setting("MOPEKIHUA_SOAK").unwrap_or(SOME);
    let seed = setting("MOPEKIHUA_SOAK_SEED").unwrap_or(1);
    let first = setting("MOPEKIHUA_SOAK_FIRST").unwrap_or(0);
    println!("\nsoak: {calls} calls, seed {seed}");
    let begun = Instant::now();
    let mut record = Record::default();
    for number in first..first + calls {
        let _named = Named { seed, number };
        record.add(&call::call(&mut random(seed, number)));
        if (number - first + 1) % 100_000 == 0 {
            eprintln!("soak: {} calls", number - first + 1);
        }
    }
    record.print();
    let lacking = record.lacking();
    assert!(calls < SOME || lacking.is_empty(), "no {lacking:?}");
    println!("all as defined, {} s\n", begun.elapsed().as_secs());
}

/// Whether the names on the command line, where there are any, ask for this
/// test, as they would for a function of this name.
fn is_asked_for() -> bool {
    let (options, names): (Vec<String>, Vec<String>) =
        env::args().skip(1).partition(|word| word.starts_with('-'));
    let listing = options.iter().any(|option| option == "--list");
    if listing {
        println!("soak: test");
    }
    !listing && (names.is_empty() || names.iter().any(|name| "soak".contains(name)))
}

/// The number that the environment gives.
fn setting(name: &str) -> Option<u64> {
    let value = env::var(name).ok().filter(|value| !value.is_empty())?;
    Some(
        value
            .parse()
            .unwrap_or_else(|_| panic!("{name} is no number: {value}")),
    )
}

/// What the call with this number is drawn from.
fn random(seed: u64, number: u64) -> Random {
    Random::seeded(seed.wrapping_add(number.wrapping_mul(0xD134_2543_DE82_EF95)))
}

/// Says which call failed, and how to make it again.
struct Named {
    seed: u64,
    number: u64,
}

impl Drop for Named {
    fn drop(&mut self) {
        if std::thread::panicking() {
            eprintln!(
                "this was call {1} of seed {0}; again: MOPEKIHUA_SOAK=1 MOPEKIHUA_SOAK_SEED={0} \
                 MOPEKIHUA_SOAK_FIRST={1} cargo test --release --test soak",
                self.seed, self.number
            );
        }
    }
}
