//! One call, held to the definition: the answer as the C functions give it, and
//! every number of every slice and beside it.

use crate::draw::Drawn;
use crate::ffi;
use crate::operation::{Operation, Part};
use crate::support::call::{Written, assert_call_beside};
use crate::support::dictionary::Dictionary;
use crate::support::oracle;
use crate::support::random::Random;

/// What came of a call.
pub struct Outcome {
    pub operation: Operation,
    /// Whether what it was lent was damaged.
    pub damaged: bool,
    /// The number of the refusal; 0 where it was accepted.
    pub number: u32,
}

/// Draws a call and makes it. The library answers what the definition gives.
pub fn call(random: &mut Random) -> Outcome {
    let operation = random.one_of(&Operation::ALL);
    let mut drawn = Drawn::new(operation, random);
    let damaged = damaged_parts(operation, random);
    for &part in &damaged {
        drawn.damage(part, random);
    }
    let work_len = work_len(operation, &drawn, &damaged, random);
    let whole = defined(operation, &drawn, work_len);
    let work = drawn.used_work(work_len, random);
    let needed = whole.as_ref().map_or(0, |result| result.written.len());
    let output_len = output_len(operation, needed, &damaged, random);
    let expected = whole.and_then(|result| match result.written.len() <= output_len {
        true => Ok(result),
        false => Err(8),
    });
    let lent = (output_len, &work[..]);
    let number = assert_made(operation, &drawn, lent, expected, random);
    Outcome {
        operation,
        damaged: !damaged.is_empty(),
        number,
    }
}

/// None in half of the calls; else one part, or in a third of these two.
fn damaged_parts(operation: Operation, random: &mut Random) -> Vec<Part> {
    let count = random.one_of(&[0, 0, 0, 1, 1, 2]);
    let mut parts: Vec<Part> = (0..count)
        .map(|_| random.one_of(operation.parts()))
        .collect();
    parts.dedup();
    parts
}

/// The length of the work slice: enough, or less.
fn work_len(operation: Operation, drawn: &Drawn, damaged: &[Part], random: &mut Random) -> usize {
    if !operation.parts().contains(&Part::Work) {
        return 0;
    }
    let n = match operation {
        Operation::Build => drawn.text.len(),
        _ => drawn.index.first().copied().map_or(0, usize::from),
    };
    some_len(8 * n, damaged.contains(&Part::Work), random)
}

/// The length of the output: enough for what is needed, or less.
fn output_len(operation: Operation, needed: usize, damaged: &[Part], random: &mut Random) -> usize {
    if !operation.parts().contains(&Part::Output) {
        return 0;
    }
    some_len(needed, damaged.contains(&Part::Output), random)
}

/// A length at or above what is needed, mostly near it; or one below, as far as
/// there is one.
fn some_len(needed: usize, below: bool, random: &mut Random) -> usize {
    match (below, random.within(0, 2)) {
        (true, 0) => random.within(0, needed.saturating_sub(1)),
        (true, _) => needed.saturating_sub(1),
        (false, 0) => needed,
        (false, _) => needed + random.within(0, 40),
    }
}

/// What an accepted call answers and writes.
#[derive(Default)]
struct Accepted {
    /// What is counted; for `first` the position, 0 where there is none.
    count: usize,
    by_length: [u64; 32],
    written: Vec<u16>,
}

impl Accepted {
    fn counts(count: usize) -> Accepted {
        Accepted {
            count,
            ..Accepted::default()
        }
    }

    fn writes(written: Vec<u16>) -> Accepted {
        Accepted {
            count: written.len(),
            written,
            ..Accepted::default()
        }
    }
}

/// What the definition gives for an output that is long enough, or the number
/// of the refusal.
fn defined(operation: Operation, drawn: &Drawn, work_len: usize) -> Result<Accepted, u32> {
    let Drawn {
        dictionary,
        text,
        index,
        string,
        gaps,
    } = drawn;
    let Dictionary { chars, lengths } = dictionary;
    let ample = usize::MAX;
    match operation {
        Operation::Admit => oracle::admit(chars, lengths).map(Accepted::counts),
        Operation::Build => {
            oracle::build(chars, lengths, text, ample, work_len).map(Accepted::writes)
        }
        Operation::Tally => {
            oracle::tally(chars, lengths, index).map(|(by_length, count)| Accepted {
                by_length,
                ..Accepted::counts(count)
            })
        }
        Operation::Receive => {
            oracle::receive(dictionary, index, work_len).map(|text| Accepted::counts(text.len()))
        }
        Operation::Recover => oracle::receive(dictionary, index, work_len).map(Accepted::writes),
        Operation::Search => {
            oracle::answer(dictionary, index, string, ample, oracle::find).map(Accepted::writes)
        }
        Operation::First => oracle::first(dictionary, index, string)
            .map(|first| Accepted::counts(first.map_or(0, usize::from))),
        Operation::Cut => {
            oracle::answer(dictionary, index, string, ample, oracle::cut_down).map(Accepted::writes)
        }
        Operation::ToGaps => oracle::to_gaps(dictionary, index, ample).map(Accepted::writes),
        Operation::FromGaps => oracle::from_gaps(dictionary, gaps, ample).map(Accepted::writes),
    }
}

/// The refusal, the count or position, and the counts by length.
type Answer = (u32, usize, [u64; 32]);

/// Makes the call with an output of this length and this work slice. Answers the
/// number of the refusal, 0 where there is none.
fn assert_made(
    operation: Operation,
    drawn: &Drawn,
    (output_len, work): (usize, &[u16]),
    expected: Result<Accepted, u32>,
    random: &mut Random,
) -> u32 {
    let number = expected.as_ref().err().copied().unwrap_or(0);
    let expected = expected.unwrap_or_default();
    let Drawn {
        dictionary: Dictionary { chars, lengths },
        text,
        index,
        string,
        gaps,
    } = drawn;
    assert_call_beside(
        random.character(),
        [chars, lengths, text, index, string, gaps],
        &[
            Written::Output(output_len, &expected.written),
            Written::Used(work),
        ],
        &(number, expected.count, expected.by_length),
        |read, written| answered(operation, read, written),
    );
    number
}

/// The library's answer.
fn answered(
    operation: Operation,
    [chars, lengths, text, index, string, gaps]: [&[u16]; 6],
    [output, work]: [&mut [u16]; 2],
) -> Answer {
    let answer = match operation {
        Operation::Admit => ffi::admit(chars, lengths),
        Operation::Build => ffi::build(chars, lengths, text, output, work),
        Operation::Receive => ffi::receive(chars, lengths, index, work),
        Operation::Recover => ffi::recover(chars, lengths, index, output, work),
        Operation::Search => ffi::search(chars, lengths, index, string, output),
        Operation::Cut => ffi::cut(chars, lengths, index, string, output),
        Operation::ToGaps => ffi::to_gaps(chars, lengths, index, output),
        Operation::FromGaps => ffi::from_gaps(chars, lengths, gaps, output),
        Operation::Tally => {
            let tally = ffi::tally(chars, lengths, index);
            return (tally.refusal, tally.count, tally.by_length);
        }
        Operation::First => {
            let first = ffi::first(chars, lengths, index, string);
            return (first.refusal, first.position as usize, [0; 32]);
        }
    };
    (answer.refusal, answer.count, [0; 32])
}
