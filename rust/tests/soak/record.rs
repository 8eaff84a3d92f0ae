//! How many calls were made, and what came of them.

use crate::call::Outcome;
use crate::operation::Operation;

/// The numbers that a lent slice is refused with, the columns of the table.
const NUMBERS: [u32; 10] = [1, 2, 3, 4, 5, 6, 7, 8, 9, 12];

/// The greatest of them.
const GREATEST: usize = 12;

/// Counts of calls.
#[derive(Default)]
pub struct Record {
    /// For each operation those accepted, and those refused by each number.
    counts: [[u64; 1 + GREATEST]; Operation::ALL.len()],
    damaged: u64,
    damaged_accepted: u64,
}

impl Record {
    pub fn add(&mut self, outcome: &Outcome) {
        self.counts[outcome.operation as usize][outcome.number as usize] += 1;
        self.damaged += u64::from(outcome.damaged);
        self.damaged_accepted += u64::from(outcome.damaged && outcome.number == 0);
    }

    pub fn print(&self) {
        println!(
            "{} calls with damaged input, {} of them accepted all the same",
            self.damaged, self.damaged_accepted
        );
        let head: String = NUMBERS.iter().map(|n| format!(" {n:>8}")).collect();
        println!("{:<9} {:>9} {:>9}{head}", "", "calls", "accepted");
        for operation in Operation::ALL {
            let counts = self.counts[operation as usize];
            let (calls, accepted) = (counts.iter().sum::<u64>(), counts[0]);
            let cells = NUMBERS.map(|number| cell(operation, number, counts[number as usize]));
            let row = cells.concat();
            println!("{:<9} {calls:>9} {accepted:>9}{row}", operation.name());
        }
    }

    /// The operations of which some answer never came: accepted, as 0, or a
    /// refusal by its number.
    pub fn lacking(&self) -> Vec<(Operation, u32)> {
        let mut lacking = Vec::new();
        for operation in Operation::ALL {
            for &number in [0].iter().chain(operation.refusals()) {
                if self.counts[operation as usize][number as usize] == 0 {
                    lacking.push((operation, number));
                }
            }
        }
        lacking
    }
}

/// How often this operation refused by this number; blank where it never does.
fn cell(operation: Operation, number: u32, count: u64) -> String {
    if operation.refusals().contains(&number) {
        format!(" {count:>8}")
    } else {
        format!(" {:>8}", "")
    }
}
