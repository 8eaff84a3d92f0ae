//! A call of the library, held to what its definition says of the answer and of
//! every slice lent.

use std::fmt::Debug;

use mopekihua::Refusal;

use super::lent::{GUARDS, Lent, few, in_front, leftover};

/// A slice lent to be written, and what the call leaves in it.
pub enum Written<'a> {
    /// Of this length: these numbers in front of what it held.
    Output(usize, &'a [u16]),
    /// Of this length: zeros.
    Work(usize),
    /// Zeros, where these numbers were.
    Used(&'a [u16]),
}

impl Written<'_> {
    fn len(&self) -> usize {
        match *self {
            Written::Output(len, _) | Written::Work(len) => len,
            Written::Used(numbers) => numbers.len(),
        }
    }

    fn before(&self, guard: u16) -> Vec<u16> {
        match *self {
            Written::Used(numbers) => numbers.to_vec(),
            _ => leftover(self.len(), !guard),
        }
    }

    fn after(&self, before: &[u16]) -> Vec<u16> {
        match self {
            Written::Output(_, numbers) => in_front(numbers, before),
            _ => vec![0; self.len()],
        }
    }
}

/// The library gives this answer, or the refusal with this number, whatever
/// lies beside the slices and whatever those lent to be written hold. Nothing is
/// changed but what is written.
#[track_caller]
pub fn assert_call<const R: usize, const W: usize, T: Debug + PartialEq>(
    read: [&[u16]; R],
    written: [Written; W],
    expected: Result<T, u32>,
    call: impl Fn([&[u16]; R], [&mut [u16]; W]) -> Result<T, Refusal>,
) {
    for guard in GUARDS {
        assert_call_beside(guard, read, &written, &expected, |read, written| {
            call(read, written).map_err(Refusal::number)
        });
    }
}

/// One call, with this number beside the slices: it gives this answer, and
/// nothing is changed but what is written.
#[track_caller]
pub fn assert_call_beside<const R: usize, const W: usize, T: Debug + PartialEq>(
    guard: u16,
    read: [&[u16]; R],
    written: &[Written; W],
    expected: &T,
    call: impl FnOnce([&[u16]; R], [&mut [u16]; W]) -> T,
) {
    let lent = read.map(|slice| Lent::new(slice, guard));
    let before = written.each_ref().map(|slice| slice.before(guard));
    let mut filled = before.each_ref().map(|slice| Lent::new(slice, guard));
    let answer = call(
        lent.each_ref().map(Lent::inner),
        filled.each_mut().map(Lent::inner_mut),
    );
    assert_eq!(
        answer,
        *expected,
        "lent to be read: {:?}; lengths of those to be written: {:?}",
        read.map(few),
        written.each_ref().map(Written::len),
    );
    for (number, (lent, slice)) in lent.iter().zip(read).enumerate() {
        lent.assert_holds(slice, &format!("slice {number} lent to be read"));
    }
    for (number, slice) in written.iter().enumerate() {
        let name = format!("slice {number} lent to be written");
        filled[number].assert_holds(&slice.after(&before[number]), &name);
    }
}
