//! The entries of an index, counted by their lengths.

use crate::{Refusal, ffi};

/// How many entries an index has, in all and of each length. A lone character
/// has length 1.
#[derive(Clone, Copy, Debug, PartialEq, Eq, Hash)]
pub struct Tally {
    /// The entries of `l` characters at index `l - 1`, for 1 to 32.
    pub by_length: [u64; 32],
    /// All entries: the sum of `by_length`.
    pub count: usize,
}

impl Tally {
    /// The entries of this many characters; 0 where none can have as many.
    pub fn of_length(&self, length: usize) -> u64 {
        let index = length.checked_sub(1);
        let count = index.and_then(|index| self.by_length.get(index));
        count.copied().unwrap_or(0)
    }
}

/// Counts the entries of an index by the length of what they spell.
///
/// `chars` and `lengths` are a dictionary as for [`admit`](crate::admit). The
/// cost is linear in the dictionary and the index.
///
/// # Errors
///
/// The first that applies:
///
/// - those of [`admit`](crate::admit);
/// - [`Refusal::IndexNotReadable`]: the index is not
///   [readable](crate#indexes) with this dictionary.
///
/// # Examples
///
/// ```
/// // The words ab, abc and bcd: ab at 5, abc at 1, bcd at 2, x at 7.
/// let chars: Vec<u16> = "ababcbcd".encode_utf16().collect();
/// let text: Vec<u16> = "abcdabx".encode_utf16().collect();
/// let index = mopekihua::build(&chars, &[2, 3, 3], &text)?;
/// let tally = mopekihua::tally(&chars, &[2, 3, 3], &index)?;
/// assert_eq!(tally.by_length[..4], [1, 1, 2, 0]);
/// assert_eq!(tally.count, 4);
/// # Ok::<(), mopekihua::Refusal>(())
/// ```
///
/// The lone character a is not readable where a is a word.
///
/// ```
/// use mopekihua::{Refusal, tally};
///
/// let index = [1, 1, 1, 0x61, 1, 1];
/// assert_eq!(tally(&[0x62], &[1], &index).map(|tally| tally.count), Ok(1));
/// assert_eq!(tally(&[0x61], &[1], &index), Err(Refusal::IndexNotReadable));
/// ```
pub fn tally(chars: &[u16], lengths: &[u16], index: &[u16]) -> Result<Tally, Refusal> {
    ffi::tally(chars, lengths, index).into_result()
}
