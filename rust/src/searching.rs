//! Finding a string in an index: all positions, or the first.

use crate::output::{stated_length, written};
use crate::{Refusal, ffi};

/// Finds a string in an index, writes the positions into a lent slice, and
/// answers how many there are.
///
/// `chars` and `lengths` are a dictionary as for [`admit`](crate::admit). Lay
/// the [replaced](crate#full-width-forms) string at position p so that it ends at
/// or before n. An entry agrees with it if the two overlap and carry equal
/// characters wherever both lie; p is found if each position of the string is
/// covered by an entry that agrees. If a text has this index, these are exactly
/// the positions at which the replaced string stands in the replaced text. The
/// index need not be that of a text.
///
/// The positions are written to the front of `output`, ascending, each once,
/// and the rest of `output` stays as it was; after a refusal all of it does. At
/// most n positions are found, so an output of that length is never too short.
///
/// # Errors
///
/// The first that applies:
///
/// - those of [`admit`](crate::admit);
/// - [`Refusal::IndexNotReadable`]: the index is not
///   [readable](crate#indexes) with this dictionary;
/// - [`Refusal::StringLengthWrong`]: the string is empty or longer than 256;
/// - [`Refusal::OutputTooShort`]: `output` is shorter than the positions found.
///
/// # Examples
///
/// ```
/// // The words ab, abc and bcd, and the index of abcdab.
/// let chars: Vec<u16> = "ababcbcd".encode_utf16().collect();
/// let index = [6, 3, 0, 0, 1, 0, 1, 1, 0, 2, 1, 5, 1, 2];
/// let ab: Vec<u16> = "ab".encode_utf16().collect();
/// let mut output = [9; 3];
/// let found = mopekihua::search_into(&chars, &[2, 3, 3], &index, &ab, &mut output);
/// assert_eq!(found, Ok(2));
/// assert_eq!(output, [1, 5, 9]);
/// ```
pub fn search_into(
    chars: &[u16],
    lengths: &[u16],
    index: &[u16],
    string: &[u16],
    output: &mut [u16],
) -> Result<usize, Refusal> {
    ffi::search(chars, lengths, index, string, output).into_result()
}

/// Finds a string in an index, and answers the positions, ascending, each once.
///
/// This is [`search_into`] with an output of n numbers, allocated here.
///
/// # Errors
///
/// Those of [`search_into`], but for an output too short.
///
/// # Examples
///
/// ```
/// // The words a, aa and aaa: aa stands at three positions of aaaa.
/// let a = [0x61; 6];
/// let index = mopekihua::build(&a, &[1, 2, 3], &a[..4])?;
/// assert_eq!(mopekihua::search(&a, &[1, 2, 3], &index, &a[..2])?, [1, 2, 3]);
/// # Ok::<(), mopekihua::Refusal>(())
/// ```
///
/// A string in either width finds the same.
///
/// ```
/// use mopekihua::{build, characters_of, search};
///
/// let index = build(&[], &[], &characters_of("DN15、ＤＮ２０")?)?;
/// for string in ["DN", "ＤＮ"] {
///     assert_eq!(search(&[], &[], &index, &characters_of(string)?)?, [1, 6]);
/// }
/// # Ok::<(), mopekihua::Error>(())
/// ```
pub fn search(
    chars: &[u16],
    lengths: &[u16],
    index: &[u16],
    string: &[u16],
) -> Result<Vec<u16>, Refusal> {
    written(stated_length(index), |output| {
        search_into(chars, lengths, index, string, output)
    })
}

/// Finds the first position of a string in an index; `None` where there is none.
/// It tells whether the string is left anywhere.
///
/// `chars` and `lengths` are a dictionary as for [`admit`](crate::admit). A
/// position is found as for [`search_into`], with the string
/// [replaced](crate#full-width-forms), and the answer is the first of those that
/// [`search`] gives. If a text has this index, it is the first position at which
/// the replaced string stands in the replaced text. The index need not be that of
/// a text.
///
/// An answer p does not depend on later entries: the index without those that
/// start after p + m - 1, for m the length of the string, and without keys left
/// empty gives the same p.
///
/// Nothing is written or allocated. The dictionary and the index are tested in
/// full. The search that follows stops early: it takes the starts in windows,
/// from the front, and goes no further than the first window that has a position
/// found. Where none is found it costs about as much as [`search_into`].
///
/// # Errors
///
/// The first that applies:
///
/// - those of [`admit`](crate::admit);
/// - [`Refusal::IndexNotReadable`]: the index is not
///   [readable](crate#indexes) with this dictionary;
/// - [`Refusal::StringLengthWrong`]: the string is empty or longer than 256.
///
/// # Examples
///
/// ```
/// // The words ab, abc and bcd, and the index of abcdab.
/// let chars: Vec<u16> = "ababcbcd".encode_utf16().collect();
/// let index = [6, 3, 0, 0, 1, 0, 1, 1, 0, 2, 1, 5, 1, 2];
/// let first = |string: &str| {
///     let string: Vec<u16> = string.encode_utf16().collect();
///     mopekihua::first(&chars, &[2, 3, 3], &index, &string)
/// };
/// assert_eq!(first("ab"), Ok(Some(1)));
/// assert_eq!(first("dab"), Ok(Some(4)));
/// assert_eq!(first("ba"), Ok(None));
/// assert_eq!(first(""), Err(mopekihua::Refusal::StringLengthWrong));
/// ```
pub fn first(
    chars: &[u16],
    lengths: &[u16],
    index: &[u16],
    string: &[u16],
) -> Result<Option<u16>, Refusal> {
    ffi::first(chars, lengths, index, string).into_result()
}
