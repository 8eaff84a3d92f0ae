//! Slices as the tests lend them.

/// A slice out of the middle of a larger one, between two runs of a guard
/// number: the library must change nothing there, and its answer must not
/// depend on what lies there.
pub struct Lent {
    numbers: Vec<u16>,
    guard: u16,
}

/// The guard numbers that a call is tried with, one call each.
pub const GUARDS: [u16; 2] = [0x0000, 0xFFFF];

impl Lent {
    const WIDTH: usize = 40;

    pub fn new(inner: &[u16], guard: u16) -> Self {
        let run = [guard; Self::WIDTH];
        Lent {
            numbers: [&run, inner, &run].concat(),
            guard,
        }
    }

    pub fn inner(&self) -> &[u16] {
        &self.numbers[Self::WIDTH..self.numbers.len() - Self::WIDTH]
    }

    pub fn inner_mut(&mut self) -> &mut [u16] {
        let end = self.numbers.len() - Self::WIDTH;
        &mut self.numbers[Self::WIDTH..end]
    }

    /// The slice holds these numbers now, and the guards stand.
    #[track_caller]
    pub fn assert_holds(&self, inner: &[u16], name: &str) {
        if self.inner() != inner {
            let i = (0..inner.len()).find(|&i| self.inner()[i] != inner[i]);
            panic!("{name} holds another number than it should at index {i:?}");
        }
        let guards = [
            &self.numbers[..Self::WIDTH],
            &self.numbers[self.numbers.len() - Self::WIDTH..],
        ];
        assert!(
            guards.concat().iter().all(|&number| number == self.guard),
            "numbers beside {name} were changed"
        );
    }
}

/// Few enough numbers of a slice to read where a test fails.
pub fn few(numbers: &[u16]) -> &[u16] {
    &numbers[..numbers.len().min(100)]
}

/// What an output or work slice holds before a call: `len` numbers that differ
/// from their neighbours and depend on the guard.
pub fn leftover(len: usize, guard: u16) -> Vec<u16> {
    (0..len)
        .map(|i| (i as u16).wrapping_mul(40_503) ^ guard)
        .collect()
}

/// An output after a call: `written` in front of what it held before.
pub fn in_front(written: &[u16], before: &[u16]) -> Vec<u16> {
    [written, &before[written.len()..]].concat()
}
