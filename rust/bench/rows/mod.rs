//! The rows of each operation. Both programs are compared before they are timed.

pub mod admission;
pub mod building;
pub mod cutting;
pub mod first;
pub mod gaps;
pub mod packing;
pub mod reception;
pub mod searching;
mod strings;
pub mod tally;

use std::fmt::Debug;
use std::hint::black_box;

use crate::adversary::{self, Adversary};
use crate::race::{Race, print_row, race};
use crate::sheets::{Case, Sheets};

/// Prints the rows of an operation on whole sheets: each size, one with many
/// full-width forms, then the adversarial ones beside the largest. `print` prints a
/// row, and answers the cost of a character in nanoseconds.
fn print_sheets(sheets: &Sheets, print: impl Fn(&str, &Case, Option<f64>) -> f64) {
    let mut ordinary = 0.0;
    for (name, case) in &sheets.sizes {
        ordinary = print(name, case, None);
    }
    let (name, case) = &sheets.full_width;
    print(name, case, None);
    for Adversary { name, case, .. } in &adversary::cases() {
        print(name, case, Some(ordinary));
    }
}

/// What each program is lent to write to.
#[derive(Clone, Default, PartialEq)]
struct Room {
    output: Vec<u16>,
    work: Vec<u16>,
}

impl Room {
    /// An output of so many numbers, and the work space that the longest sheet
    /// asks for.
    fn new(output: usize, case: &Case) -> Room {
        Room {
            output: vec![0; output],
            work: vec![0; mopekihua::work_needed(case.longest())],
        }
    }
}

/// A row to be timed.
struct Row<'a, I> {
    name: &'a str,
    /// Each is handed to one call.
    inputs: &'a [I],
    /// How many characters these are in all.
    chars: usize,
    /// The cost of an ordinary character in nanoseconds, for adversarial rows.
    ordinary: Option<f64>,
    room: Room,
}

impl<'a, I> Row<'a, I> {
    /// A row over all sheets of a case.
    fn of_sheets(
        name: &'a str,
        case: &Case,
        inputs: &'a [I],
        ordinary: Option<f64>,
        room: Room,
    ) -> Row<'a, I> {
        Row {
            name,
            inputs,
            chars: case.texts.iter().map(Vec::len).sum(),
            ordinary,
            room,
        }
    }

    /// Prints the row, and answers the cost of a character in nanoseconds.
    fn print<T: Debug + PartialEq>(
        self,
        proved: impl Fn(&I, &mut Room) -> Result<T, u32>,
        plain: impl Fn(&I, &mut Room) -> Result<T, u32>,
    ) -> f64 {
        self.print_race(proved, plain).proved / self.chars as f64
    }

    /// Prints the row, and answers the times of all calls.
    fn print_race<T: Debug + PartialEq>(
        &self,
        proved: impl Fn(&I, &mut Room) -> Result<T, u32>,
        plain: impl Fn(&I, &mut Room) -> Result<T, u32>,
    ) -> Race {
        let (mut room, mut plain_room) = self.compare(&proved, &plain);
        let times = race(
            || {
                for input in black_box(self.inputs) {
                    let _ = black_box(proved(input, &mut room));
                }
            },
            || {
                for input in black_box(self.inputs) {
                    let _ = black_box(plain(input, &mut plain_room));
                }
            },
        );
        self.print_times(times);
        times
    }

    /// Sees that both programs accept every input, answer the same and write the
    /// same. Answers a room for each.
    fn compare<T: Debug + PartialEq>(
        &self,
        proved: impl Fn(&I, &mut Room) -> Result<T, u32>,
        plain: impl Fn(&I, &mut Room) -> Result<T, u32>,
    ) -> (Room, Room) {
        let name = self.name;
        let mut room = self.room.clone();
        let mut plain_room = self.room.clone();
        for input in self.inputs {
            let answer = proved(input, &mut room);
            assert!(answer.is_ok(), "{name}");
            assert_eq!(answer, plain(input, &mut plain_room), "{name}");
            assert!(room == plain_room, "{name}");
        }
        (room, plain_room)
    }

    fn print_times(&self, times: Race) {
        let name = format!("  {}", self.name);
        print_row(&name, times, self.inputs.len(), self.chars, self.ordinary);
    }
}
