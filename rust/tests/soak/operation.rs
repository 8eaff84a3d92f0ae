//! The operations.

/// An operation of the library.
#[derive(Clone, Copy, Debug, PartialEq, Eq)]
pub enum Operation {
    Admit,
    Build,
    Tally,
    Receive,
    Recover,
    Search,
    First,
    Cut,
    ToGaps,
    FromGaps,
}

/// What a call may be lent wrongly.
#[derive(Clone, Copy, Debug, PartialEq, Eq)]
pub enum Part {
    Dictionary,
    Text,
    Index,
    String,
    Gaps,
    Work,
    Output,
}

impl Operation {
    pub const ALL: [Operation; 10] = [
        Operation::Admit,
        Operation::Build,
        Operation::Tally,
        Operation::Receive,
        Operation::Recover,
        Operation::Search,
        Operation::First,
        Operation::Cut,
        Operation::ToGaps,
        Operation::FromGaps,
    ];

    pub fn name(self) -> &'static str {
        match self {
            Operation::Admit => "admit",
            Operation::Build => "build",
            Operation::Tally => "tally",
            Operation::Receive => "receive",
            Operation::Recover => "recover",
            Operation::Search => "search",
            Operation::First => "first",
            Operation::Cut => "cut",
            Operation::ToGaps => "to_gaps",
            Operation::FromGaps => "from_gaps",
        }
    }

    /// What it is lent.
    pub fn parts(self) -> &'static [Part] {
        use Part::{Dictionary, Gaps, Index, Output, String, Text, Work};
        match self {
            Operation::Admit => &[Dictionary],
            Operation::Build => &[Dictionary, Text, Work, Output],
            Operation::Tally => &[Dictionary, Index],
            Operation::Receive => &[Dictionary, Index, Work],
            Operation::Recover => &[Dictionary, Index, Work, Output],
            Operation::First => &[Dictionary, Index, String],
            Operation::Search | Operation::Cut => &[Dictionary, Index, String, Output],
            Operation::ToGaps => &[Dictionary, Index, Output],
            Operation::FromGaps => &[Dictionary, Gaps, Output],
        }
    }

    /// The numbers that it refuses with, in the order of its tests.
    pub fn refusals(self) -> &'static [u32] {
        match self {
            Operation::Admit => &[1, 2, 3, 12],
            Operation::Build => &[1, 2, 3, 12, 4, 7, 8],
            Operation::Tally => &[1, 2, 3, 12, 5],
            Operation::Receive => &[1, 2, 3, 12, 5, 7, 9],
            Operation::Recover => &[1, 2, 3, 12, 5, 7, 9, 8],
            Operation::First => &[1, 2, 3, 12, 5, 6],
            Operation::Search | Operation::Cut => &[1, 2, 3, 12, 5, 6, 8],
            Operation::ToGaps | Operation::FromGaps => &[1, 2, 3, 12, 5, 8],
        }
    }
}
